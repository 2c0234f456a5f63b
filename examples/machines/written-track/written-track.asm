* Loaded from a disk, it writes a track of that disk: three records with keys. Then it writes new data into the second, which it
* finds by its key, and reads them back. It ends in a disabled wait at 600D, or at BAD1 where something went otherwise.
         ORG   X'78'
         PSW   0,ENDED             where an interruption of the disk leads
         ORG   X'100'
BEGIN    LH    2,2                 the loading has stored the address of the disk
         LA    1,WRITE
         BAL   14,DOIO
         LA    1,UPDATE
         BAL   14,DOIO
         LA    1,READ
         BAL   14,DOIO
         CLC   INPUT(12),NEW
         BNE   BAD
         LPSW  DONE
*        starts the channel program at register 1, waits for its end, and goes on at register 14
DOIO     ST    1,X'48'
         SIO   0(2)
         BNZ   BAD
         LPSW  WAIT
ENDED    CLI   X'44',X'0C'         channel end and device end, and nothing else
         BNE   BAD
         CLI   X'45',0
         BNE   BAD
         BR    14
BAD      LPSW  FAILED
WAIT     PSW   X'FE020000',0
DONE     PSW   X'00020000',X'600D'
FAILED   PSW   X'00020000',X'BAD1'
*        to head 5 of cylinder 0; there all records are written anew
WRITE    CCW   X'07',TRACK,X'40',6
         CCW   X'1F',MASK,X'40',1
         CCW   X'39',TRACK+2,X'40',4
         CCW   X'08',*-8,0,0
         CCW   X'1D',ANNA,X'40',8+4+5
         CCW   X'1D',BERT,X'40',8+4+12
         CCW   X'1D',CARL,0,8+4
*        the arm is where it was left
UPDATE   CCW   X'29',BERT+8,X'40',4
         CCW   X'08',*-8,0,0
         CCW   X'05',NEW,0,12
READ     CCW   X'31',BERT,X'40',5
         CCW   X'08',*-8,0,0
         CCW   X'06',INPUT,0,12
TRACK    DC    X'000000000005'
MASK     DC    X'C0'
*        cylinder, head, number, length of the key, length of the data; the key and the data
ANNA     DC    X'0000000501',X'04',X'0005',C'ANNA',C'ALPHA'
BERT     DC    X'0000000502',X'04',X'000C',C'BERT',C'BETA........'
CARL     DC    X'0000000503',X'04',X'0000',C'CARL'
NEW      DC    C'BETA, BUT ON'
INPUT    DS    CL12
         END   BEGIN
