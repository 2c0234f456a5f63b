* Punches a card.
         ORG   X'48'
         DC    A(PUNCH)
         ORG   X'200'
BEGIN    SIO   X'00D'
         ORG   X'800'
PUNCH    CCW   1,CARD,X'00',80
         ORG   X'840'
CARD     DC    C'CARD OF A 01'
         END   BEGIN
