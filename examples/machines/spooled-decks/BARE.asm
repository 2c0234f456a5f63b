* Reads card after card; at PUNCH it punches one and goes on reading; at SENSE it asks the reader why it refused.
         ORG   X'48'
CAW      DC    A(READS)
         ORG   X'100'
READ     SIO   X'00C'
         TIO   X'00C'
         B     READ
         ORG   X'120'
PUNCH    MVC   CAW(4),PUNCHED
         SIO   X'00D'
         TIO   X'00D'
         MVC   CAW(4),READER
         B     READ
         ORG   X'140'
SENSE    MVC   CAW(4),SENSED
         SIO   X'00C'
         TIO   X'00C'
PUNCHED  DC    A(PUNCHES)
READER   DC    A(READS)
SENSED   DC    A(SENSES)
         ORG   X'200'
READS    CCW   2,X'900',X'00',80
PUNCHES  CCW   1,CARD,X'20',3
SENSES   CCW   4,X'980',X'00',1
CARD     DC    C'ABC'
         END   READ
