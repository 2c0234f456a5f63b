* Tries to write a record of a disk that is only read, keeps the status, and asks for the reason.
         ORG   X'48'
         DC    A(SEARCH)
         ORG   X'200'
BEGIN    SIO   X'190'
WRITING  TIO   X'190'
         BC    2,WRITING
         MVC   STATUS(8),X'40'
         MVC   X'48'(4),REASON
         SIO   X'190'
ASKING   TIO   X'190'
         BC    2,ASKING
DONE     BC    15,DONE
         ORG   X'300'
REASON   DC    A(SENSE)
         ORG   X'800'
SEARCH   CCW   X'31',NUMBER,X'40',5
         CCW   8,SEARCH,X'00',0
         CCW   5,TEXT,X'00',8     write data
SENSE    CCW   4,ANSWER,X'20',2
         ORG   X'840'
NUMBER   DC    X'0000000001'
TEXT     DC    C'NEW TEXT'
         ORG   X'900'
STATUS   DS    8X
ANSWER   DS    2X
         END   BEGIN
