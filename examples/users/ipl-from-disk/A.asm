* Prints a line on its console and ends: the last record that the loading reads, into 200.
         ORG   X'200'
BEGIN    MVC   X'48'(4),CONSOLE
         SIO   X'009'
PRINTING TIO   X'009'
         BC    2,PRINTING
         LPSW  STOP
STOP     DS    0D
         PSW   X'00020000',X'600D'
CONSOLE  DC    A(PRINT)
PRINT    CCW   9,TEXT,X'00',16
TEXT     DC    C'LOADED FROM DISK'
         END   BEGIN
