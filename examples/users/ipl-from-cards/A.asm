* Punches two cards. The first brings a PSW and a command word, which reads the second into 200; that is a program, which
* prints a line on the console and ends. So an address in it is told from 200 on.
         ORG   X'48'
         DC    A(PUNCH)
         ORG   X'100'
BEGIN    SIO   X'00D'
         ORG   X'800'
PUNCH    CCW   1,FIRST,X'40',80
         CCW   1,SECOND,X'00',80
         ORG   X'840'
FIRST    PSW   X'00000000',X'200'
         CCW   2,X'200',X'20',80
         ORG   X'890'
SECOND   MVC   X'48'(4),CONSOLE-SECOND+512
         SIO   X'009'
PRINTING TIO   X'009'
         BC    2,PRINTING-SECOND+512
         LPSW  STOP-SECOND+512
STOP     DS    0D
         PSW   X'00020000',X'600D'
CONSOLE  DC    A(PRINT-SECOND+512)
PRINT    CCW   9,TEXT-SECOND+512,X'00',17
TEXT     DC    C'LOADED FROM CARDS'
         END   BEGIN
