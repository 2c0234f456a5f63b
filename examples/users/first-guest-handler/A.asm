* Adds the numbers on cards, as first-guest-cards; but the machine waits for each end, which an interruption tells.
READER   EQU   X'00C'
PRINTER  EQU   X'00E'
         ORG   X'40'
CSW      DS    D                   the channel status word
CAW      DS    F                   the channel address word
         ORG   X'78'
         PSW   0,ENDED             the new PSW of input/output interruptions
         ORG   X'100'
BEGIN    SR    2,2                 the sum
NEXT     LA    1,READ
         LA    3,READER
         BAL   14,DOIO
         TM    CSW+4,X'01'         unit exception: no card was left
         BO    PRINT
         PACK  PACKED,CARD(3)
         CVB   1,PACKED
         AR    2,1
         B     NEXT
PRINT    CVD   2,PACKED
         UNPK  DIGITS,PACKED
         OI    DIGITS+2,X'F0'
         LA    1,WRITE
         LA    3,PRINTER
         BAL   14,DOIO
         LPSW  DONE
*        starts the channel program at register 1 on the device at register 3, and waits for its end
DOIO     ST    1,CAW
         SIO   0(3)
         BC    7,BAD               mask 7, codes 1 to 3: it was not started
         LPSW  WAIT
ENDED    BR    14                  an interruption of a device leads here
BAD      LPSW  FAILED
READ     CCW   X'02',CARD,0,80
WRITE    CCW   X'09',LINE,0,7
WAIT     PSW   X'80020000',0       bit 14: wait; bit 0: interruptions of channel 0
DONE     PSW   X'00020000',0
FAILED   PSW   X'00020000',X'BAD'
LINE     DC    C'SUM '
DIGITS   DS    CL3
PACKED   DS    D
CARD     DS    CL80
         END   BEGIN
