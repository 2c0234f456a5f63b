* A program that reads over its own seek argument and then seeks by it. Its first seek goes to cylinder 0; there it reads a record
* of six bytes into the argument, and the second seek goes to where the record says.
         ORG   X'48'
         DC    A(SEEK)
         ORG   X'78'
         PSW   X'00020000',X'600D'
         ORG   X'100'
BEGIN    SIO   X'190'
         LPSW  WAIT
WAIT     PSW   X'40020000',0
         ORG   X'800'
SEEK     CCW   X'07',PLACE,X'40',6
FIND     CCW   X'31',RECORD,X'40',5
         CCW   X'08',FIND,0,0
         CCW   X'06',PLACE,X'40',6
         CCW   X'07',PLACE,X'40',6
         CCW   X'12',COUNT,X'40',8
         CCW   X'06',TEXT,0,16
PLACE    DC    X'000000000000'
RECORD   DC    X'0000000001'
         ORG   X'860'
COUNT    DS    XL8
         ORG   X'870'
TEXT     DS    XL16
SENSE    CCW   X'04',BYTES,X'20',2
BYTES    DS    XL2
         END   BEGIN
