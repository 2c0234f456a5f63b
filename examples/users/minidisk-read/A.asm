* Reads a record of its disk, which is found by its number, and prints it on its console.
         ORG   X'48'
         DC    A(READ)
         ORG   X'200'
BEGIN    SIO   X'191'
READING  TIO   X'191'             the program runs when the disk is served
         BC    2,READING
         MVC   X'48'(4),CONSOLE
         SIO   X'009'
PRINTING TIO   X'009'
         BC    2,PRINTING
DONE     BC    15,DONE
         ORG   X'300'
CONSOLE  DC    A(PRINT)
         ORG   X'800'
READ     CCW   7,PLACE,X'40',6    to cylinder 2 and head 3
SEARCH   CCW   X'31',NUMBER,X'40',5
         CCW   8,SEARCH,X'00',0   back, until the number is found, which skips this word
         CCW   6,DATA,X'00',17
PRINT    CCW   9,DATA,X'00',17
         ORG   X'840'
PLACE    DC    X'000000020003'
NUMBER   DC    X'0002000302'
         ORG   X'900'
DATA     DS    17X
         END   BEGIN
