* Lines of 132, 133 and 265 characters for the console, and bytes that print as no character, for console and printer. A write
* takes at most 132 bytes: of a count of 133 one is left, which is no incorrect length.
         ORG   X'48'
CAW      DC    A(LINES)
         ORG   X'100'
BEGIN    MVI   TEXT,C'A'
         MVC   TEXT+1(131),TEXT   132 times A
         SIO   X'009'
         TIO   X'009'
         MVC   CAW(4),NEXT
         SIO   X'00E'
         TIO   X'00E'
NEXT     DC    A(PAGE)
         ORG   X'200'
LINES    CCW   9,TEXT,X'40',132   a whole line
         CCW   1,TEXT,X'40',132   one of 133 characters
         CCW   9,REST,X'40',1
         CCW   1,TEXT,X'40',132   one of 265
         CCW   1,TEXT,X'40',132
         CCW   9,REST,X'40',1
         CCW   9,TEXT,X'40',133   one byte too many
         CCW   9,BYTES,X'00',8
         ORG   X'280'
PAGE     CCW   9,TEXT,X'40',133
         CCW   17,BYTES,X'00',8
BYTES    DC    X'00C1417AFFC25B15' of them 7A is a colon, 5B a dollar sign
TEXT     EQU   X'300'
         ORG   TEXT+132
REST     DC    C'B'
         END   BEGIN
