* Moves its arm and reads a record, prints it, and reads once more with no seek, from where the arm stands.
         ORG   X'48'
         DC    A(SEEK)
         ORG   X'200'
BEGIN    SIO   X'191'
READING  TIO   X'191'
         BC    2,READING
         MVC   X'48'(4),CONSOLE
         SIO   X'009'
PRINTING TIO   X'009'
         BC    2,PRINTING
         MVC   X'48'(4),AGAIN
         BC    15,BEGIN
         ORG   X'300'
CONSOLE  DC    A(PRINT)
AGAIN    DC    A(READ)
         ORG   X'800'
SEEK     CCW   7,PLACE,X'40',6
READ     CCW   6,DATA,X'00',12
PRINT    CCW   9,DATA,X'00',12
         ORG   X'840'
PLACE    DC    X'000000020003'
         ORG   X'900'
DATA     DS    12X
         END   BEGIN
