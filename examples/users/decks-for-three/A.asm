* Reads a card and prints its first twelve characters.
         ORG   X'48'
         DC    A(READ)
         ORG   X'200'
BEGIN    SIO   X'00C'
READING  TIO   X'00C'             the program runs when the reader is served
         BC    2,READING
         MVC   X'48'(4),PRINTER
         SIO   X'00E'
PRINTING TIO   X'00E'
         BC    2,PRINTING
DONE     BC    15,DONE
         ORG   X'300'
PRINTER  DC    A(WRITE)
         ORG   X'800'
READ     CCW   2,CARD,X'20',80
         ORG   X'810'
WRITE    CCW   9,CARD,X'20',12
CARD     EQU   X'840'
         END   BEGIN
