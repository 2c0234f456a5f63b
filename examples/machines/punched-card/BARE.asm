* Starts a channel program that punches a card.
         ORG   X'48'
         DC    A(CARD)
         ORG   X'100'
BEGIN    SIO   X'00D'
         ORG   X'800'
CARD     CCW   1,TEXT,X'00',80
         ORG   X'840'
TEXT     DC    C'ABC'
         END   BEGIN
