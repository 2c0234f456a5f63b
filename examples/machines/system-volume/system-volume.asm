* A volume from which a system is started, in the form that such volumes have. Its first record is a PSW and two command words,
* 'read the next record' and 'transfer there', and the second is the next command words: they seek head 1 and read the nucleus from
* there, two records. So a channel program reads its own words before it comes to them. The nucleus reads the label of the volume
* by its key, writes the serial number on the console, and ends.
*
* Each RECORD is a record of the volume, here at the address that it is read to; asm370 --listing tells its bytes.
         ORG   0
RECORD1  PSW   0,RECORD4
         CCW   X'06',RECORD2,X'40',NUCLEUS+7-RECORD2
         CCW   X'08',RECORD2,0,0
*        the command words that the two above bring; they lie in two pages
         ORG   X'FE8'
RECORD2  CCW   X'07',NUCLEUS,X'40',6
FIND     CCW   X'31',NUCLEUS+2,X'40',5
         CCW   X'08',FIND,0,0
         CCW   X'06',RECORD4,X'40',GREETING+4-RECORD4
         CCW   X'06',RECORD5,0,26
NUCLEUS  DC    X'000000000001',X'01'   cylinder 0, head 1, record 1
*        the label, whose key is VOL1
         ORG   X'A00'
RECORD3  DC    CL80'VOL1SYSRES'
*        the nucleus
         ORG   X'600'
RECORD4  LH    2,2                 the address of the disk, which the loading has stored
         MVC   X'78'(8),INPUT
         LA    1,LABEL
         BAL   14,DOIO
         L     3,GREETING
         MVC   20(6,3),RECORD3+4   the serial number, behind the text
         LA    1,WRITE
         LA    2,9
         BAL   14,DOIO
         LPSW  DONE
*        starts the channel program at register 1, waits for its end, and goes on at register 14
DOIO     ST    1,X'48'
         SIO   0(2)
         BNZ   BAD
         LPSW  WAIT
ENDED    CLC   X'44'(2),GOOD       channel end and device end, and nothing else
         BCR   8,14
BAD      LPSW  FAILED
INPUT    PSW   0,ENDED
WAIT     PSW   X'FE020000',0
DONE     PSW   X'00020000',X'600D'
FAILED   PSW   X'00020000',X'BAD1'
LABEL    CCW   X'07',TRACK,X'40',6
SEARCH   CCW   X'29',KEY,X'40',4
         CCW   X'08',SEARCH,0,0
         CCW   X'06',RECORD3,0,80
WRITE    CCW   X'09',RECORD5,0,26
TRACK    DC    X'000000000000'
GOOD     DC    X'0C00'
KEY      DC    C'VOL1'
GREETING DC    A(RECORD5)
*        its second record, which lies in two pages; the serial number comes from the label
         ORG   X'1FF0'
RECORD5  DC    C'SYSTEM STARTED FROM ??????'
         END   RECORD4
