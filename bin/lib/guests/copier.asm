* Copies the cards of the reader at 00C to the printer at 00E, a line for each, until there is no card after as many decks as
* register 1 says. It waits for each device by an interruption, as a system does.
         ORG   X'78'
         DC    X'00000000',A(ENDED)    the new PSW for input and output
         ORG   X'200'
BEGIN    LA    12,X'200'
         USING BEGIN,12
NEXT     MVC   72(4),READS
         SIO   X'00C'(0)
         BC    7,FAILED
         BAL   14,WAITS
         TM    68,X'01'           unit exception: there was no card
         BO    EMPTY
         MVC   72(4),WRITES
         SIO   X'00E'(0)
         BC    7,FAILED
         BAL   14,WAITS
         B     NEXT
WAITS    LPSW  WAITING
ENDED    TM    68,X'04'           device end
         BCR   1,14
         LPSW  WAITING
EMPTY    BCT   1,NEXT             as many decks as register 1 says
         LPSW  STOP
FAILED   LPSW  BAD
WAITING  DC    0D'0',X'FE02000000000000'
STOP     DC    0D'0',X'0002000000000900'
BAD      DC    0D'0',X'0002000000000BAD'
READS    DC    A(READ)
WRITES   DC    A(WRITE)
         DS    0D
READ     DC    X'02',AL3(CARD),X'2000',H'80'
WRITE    DC    X'09',AL3(CARD),X'2000',H'80'
CARD     DS    CL80
         END   BEGIN
