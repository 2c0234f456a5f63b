* Starts a channel program that reads a card, and tests the reader.
         ORG   X'48'
         DC    A(CARD)
         ORG   X'100'
BEGIN    SIO   X'00C'
         TIO   X'00C'
         ORG   X'800'
CARD     CCW   2,X'900',X'00',80
         END   BEGIN
