* Adds the numbers of a text such as APPLES=12,PEARS=30005; and writes the sum as decimal digits. TRT finds the next sign of
* the text that its table knows; PACK and CVB, with the length by EX, read a number; CVD and UNPK write one.
         ORG   X'100'
BEGIN    LA    8,TEXT             where the next name or number begins
         SR    9,9                the sum
SCAN     SR    2,2
         TRT   0(64,8),SIGNS      the sign to register 2, its address to 1
         BZ    FAILED
         LR    10,1
         CLI   0(10),C'='         what stood before it was a name
         BE    NEXT
         SR    1,8                a number, of so many digits
         BCTR  1,0
         EX    1,PACK
         CVB   4,PACKED
         AR    9,4
NEXT     LA    8,1(10)
         CLI   0(10),C';'
         BNE   SCAN
         CVD   9,PACKED
         UNPK  DIGITS(8),PACKED+3(5)
         OI    DIGITS+7,X'F0'     a digit in place of the sign
         LPSW  DONE
FAILED   LPSW  STOP
PACK     PACK  PACKED(8),0(1,8)
PACKED   DS    D
DONE     DC    0D'0',X'000200000000600D'
STOP     DC    0D'0',X'0002000000000BAD'
         ORG   X'200'
DIGITS   DS    CL16
TEXT     DC    C'APPLES=12,PEARS=30005,PLUMS=7,NOTHING=0,LAST=999999;'
* the signs: the byte of each stands at its own place, and all others are zero
         ORG   X'300'
SIGNS    EQU   *
         ORG   SIGNS+C';'
         DC    C';'
         ORG   SIGNS+C','
         DC    C','
         ORG   SIGNS+C'='
         DC    C'='
         ORG   SIGNS+256
         END   BEGIN
