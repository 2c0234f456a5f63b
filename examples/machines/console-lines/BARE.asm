* Tests the console, starts a program that reads a line, and tests; then tests, starts, halts and tests.
         ORG   X'48'
         DC    A(LINE)
         ORG   X'100'
BEGIN    TIO   X'009'
         SIO   X'009'
         TIO   X'009'
         TIO   X'009'
         SIO   X'009'
         HIO   X'009'
         TIO   X'009'
         ORG   X'800'
LINE     CCW   10,X'900',X'20',80
         END   BEGIN
