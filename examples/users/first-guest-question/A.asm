* Asks for a number at the console, and tells twice of it.
CONSOLE  EQU   X'009'
         ORG   X'40'
CSW      DS    D                   the channel status word
CAW      DS    F                   the channel address word
         ORG   X'78'
         PSW   0,ENDED             the new PSW of input/output interruptions
         ORG   X'100'
BEGIN    LA    3,CONSOLE
         LA    1,ASK
         BAL   14,DOIO
         BAL   14,PAUSE            until a line is typed, which attention tells
         LA    1,READ
         BAL   14,DOIO
         PACK  PACKED,ANSWER
         CVB   2,PACKED
         AR    2,2
         CVD   2,PACKED
         UNPK  DIGITS,PACKED
         OI    DIGITS+2,X'F0'
         LA    1,TELL
         BAL   14,DOIO
         LPSW  DONE
*        starts the channel program at register 1 on the device at register 3, and waits for its end
DOIO     ST    1,CAW
         SIO   0(3)
         BC    7,BAD               mask 7, codes 1 to 3: it was not started
PAUSE    LPSW  WAIT
ENDED    BR    14                  an interruption of a device leads here
BAD      LPSW  FAILED
ASK      CCW   X'09',QUESTION,0,L'QUESTION
READ     CCW   X'0A',ANSWER,X'20',3   a line of another length is no error (SLI)
TELL     CCW   X'09',LINE,0,12
WAIT     PSW   X'80020000',0       bit 14: wait; bit 0: interruptions of channel 0
DONE     PSW   X'00020000',0
FAILED   PSW   X'00020000',X'BAD'
QUESTION DC    C'YOUR NUMBER (3 DIGITS)?'
LINE     DC    C'TWICE IS '
DIGITS   DS    CL3
ANSWER   DS    CL3
PACKED   DS    D
         END   BEGIN
