* The primes below 100 as words from TABLE on, each found by dividing by those before it. Register 7 has their number.
         ORG   X'100'
BEGIN    LA    4,TABLE            where the next prime goes
         LA    5,2                the number that is tried
NEXT     LA    6,TABLE
DIVIDE   CR    6,4                no prime below divides it
         BNL   PRIME
         SR    2,2
         LR    3,5
         D     2,0(6)             the remainder to register 2
         LTR   2,2
         BZ    TRIED
         LA    6,4(6)
         B     DIVIDE
PRIME    ST    5,0(4)
         LA    4,4(4)
TRIED    LA    5,1(5)
         C     5,LIMIT
         BL    NEXT
         LR    7,4
         LA    1,TABLE
         SR    7,1
         SRL   7,2
         LPSW  DONE
LIMIT    DC    F'100'
DONE     DC    0D'0',X'000200000000600D'
TABLE    EQU   X'200'
         END   BEGIN
