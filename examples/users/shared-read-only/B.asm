* Reads a record of a disk and prints it.
         ORG   X'48'
         DC    A(READ)
         ORG   X'200'
BEGIN    SIO   X'190'
READING  TIO   X'190'
         BC    2,READING
         MVC   X'48'(4),CONSOLE
         SIO   X'009'
PRINTING TIO   X'009'
         BC    2,PRINTING
DONE     BC    15,DONE
         ORG   X'300'
CONSOLE  DC    A(PRINT)
         ORG   X'800'
READ     CCW   6,DATA,X'00',8
PRINT    CCW   9,DATA,X'00',8
         ORG   X'900'
DATA     DS    8X
         END   BEGIN
