* Three routines, one after another and as many times as register 1 says: a sort of words, a parser that adds the numbers of a
* text, and a sieve of primes. Register 9 keeps what they found, so that a round that goes wrong shows.
         ORG   X'200'
BEGIN    LA    12,X'200'
         USING BEGIN,12
ROUND    BAL   14,SORT
         BAL   14,PARSE
         BAL   14,SIEVE
         BCT   1,ROUND
         LPSW  DONE
DONE     DC    0D'0',X'0002000000000900'
*        sixteen words are put in order, by exchanging neighbours
SORT     MVC   TABLE(64),WORDS
         LA    3,15               so many pairs are left to look at
PASS     LR    4,3
         LA    5,TABLE
PAIR     L     6,0(5)
         L     7,4(5)
         CR    6,7
         BNH   RIGHT
         ST    7,0(5)
         ST    6,4(5)
RIGHT    LA    5,4(5)
         BCT   4,PAIR
         BCT   3,PASS
         BR    14
*        the numbers of a text such as APPLES=12,PEARS=30005; are added, and the sum is written as digits
PARSE    LA    8,TEXT
         SR    9,9
SCAN     SR    2,2
         LR    13,1
         TRT   0(64,8),SIGNS      the sign to register 2, its address to 1
         LR    10,1
         CLI   0(10),C'='         what stood before it was a name
         BE    NEXT
         SR    1,8                a number, of so many digits
         BCTR  1,0
         EX    1,PACK
         CVB   4,PACKED
         AR    9,4
NEXT     LR    1,13
         LA    8,1(10)
         CLI   0(10),C';'
         BNE   SCAN
         CVD   9,PACKED
         UNPK  DIGITS(8),PACKED+3(5)
         OI    DIGITS+7,X'F0'     a digit in place of the sign
         BR    14
PACK     PACK  PACKED(8),0(1,8)
PACKED   DS    D
DIGITS   DS    CL8
*        the odd numbers below 256 that none divides keep their byte
SIEVE    XC    FLAGS(128),FLAGS   byte K is for 2K+1
         LA    3,1
         LA    7,127
STRIKE   LA    4,FLAGS(3)
         CLI   0(4),0
         BNE   STRUCK
         LR    5,3                the step is 2K+1
         AR    5,3
         LA    5,1(5)
         LR    6,3
MULTIPLE AR    6,5
         CR    6,7
         BH    STRUCK
         LA    4,FLAGS(6)
         MVI   0(4),1
         B     MULTIPLE
STRUCK   LA    3,1(3)
         C     3,LIMIT
         BL    STRIKE
         BR    14
LIMIT    DC    F'8'
WORDS    DC    F'17,-3,2147483647,0,-2147483647,99,100,5,5,1000000,-1,42,7,-8,12,3'
TEXT     DC    C'APPLES=12,PEARS=30005,PLUMS=7,NOTHING=0,LAST=999999;'
         ORG   X'500'
*        the signs: the byte of each stands at its own place, and all others are zero
SIGNS    EQU   *
         ORG   SIGNS+C';'
         DC    C';'
         ORG   SIGNS+C','
         DC    C','
         ORG   SIGNS+C'='
         DC    C'='
         ORG   SIGNS+256
TABLE    DS    16F
FLAGS    DS    CL128
         END   BEGIN
