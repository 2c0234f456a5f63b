* Counts on a disk: reads the number in record 1 of its first track, and writes one more in its place.
DISK     EQU   X'191'
         ORG   X'40'
CSW      DS    D                   the channel status word
CAW      DS    F                   the channel address word
         ORG   X'78'
         PSW   0,ENDED             the new PSW of input/output interruptions
         ORG   X'100'
BEGIN    LA    3,DISK
         LA    1,READ
         BAL   14,DOIO
         PACK  PACKED,NUMBER
         CVB   2,PACKED
         LA    2,1(2)
         CVD   2,PACKED
         UNPK  NUMBER,PACKED
         OI    NUMBER+2,X'F0'
         LA    1,WRITE
         BAL   14,DOIO
         LPSW  DONE
*        starts the channel program at register 1 on the device at register 3, and waits for its end
DOIO     ST    1,CAW
         SIO   0(3)
         BC    7,BAD               mask 7, codes 1 to 3: it was not started
         LPSW  WAIT
ENDED    BR    14                  an interruption of a device leads here
BAD      LPSW  FAILED
READ     CCW   X'07',TRACK,X'40',6  seek; flag 40: the next command belongs to it
         CCW   X'31',RECORD,X'40',5  search the record; once found, the next word is left out
         CCW   X'08',*-8,0,0       else search again
         CCW   X'06',NUMBER,0,3    read its data
WRITE    CCW   X'31',RECORD,X'40',5
         CCW   X'08',*-8,0,0
         CCW   X'05',NUMBER,0,3    write its data
WAIT     PSW   X'40020000',0       bit 14: wait; bit 1: interruptions of channel 1
DONE     PSW   X'00020000',0
FAILED   PSW   X'00020000',X'BAD'
TRACK    DC    X'000000000000'     of cylinder 0 the head 0
RECORD   DC    X'0000000001'       cylinder, head, and the record's number
NUMBER   DS    CL3
PACKED   DS    D
         END   BEGIN
