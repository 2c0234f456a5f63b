* Starts a channel program that writes a line on the console.
         ORG   X'48'
         DC    A(LINE)
         ORG   X'100'
BEGIN    SIO   X'009'
         ORG   X'800'
LINE     CCW   9,TEXT,X'00',5
         ORG   X'840'
TEXT     DC    C'HELLO'
         END   BEGIN
