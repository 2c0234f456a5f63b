* Moves a text of 52 bytes into a block of 700, which is filled with stars, and compares the two: equal. Then a byte of the
* block is changed, and the second comparison ends there: registers 6 and 7 tell where, and the condition code which is lower.
         ORG   X'100'
BEGIN    LM    2,5,OPERANDS
         MVCL  2,4
         LM    6,7,OPERANDS
         LM    4,5,OPERANDS+8
         CLCL  6,4
         BNE   FAILED
         L     6,OPERANDS
         MVI   600(6),C'-'
         LM    6,7,OPERANDS
         LM    4,5,OPERANDS+8
         CLCL  6,4                C'-' is above C'*': 60 and 5C
         BNH   FAILED
         LPSW  DONE
FAILED   LPSW  STOP
OPERANDS DC    A(BLOCK),F'700',A(TEXT),X'5C000034'
DONE     DC    0D'0',X'000200000000600D'
STOP     DC    0D'0',X'0002000000000BAD'
TEXT     DC    C'apples=12,pears=30005,plums=7,nothing=0,last=999999;'
BLOCK    EQU   X'1000'
         END   BEGIN
