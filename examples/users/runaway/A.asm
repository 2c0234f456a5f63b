* A guest that has lost its way: it stores over everything from 200 on, until it meets the end of its storage. The addressing
* exception, code 5, then stops it.
         ORG   X'68'
         DC    X'000200000000DEAD'     the new PSW for program interruptions
         ORG   X'100'
BEGIN    LA    1,X'200'
         L     2,ONES
STORE    ST    2,0(1)
         LA    1,4(1)
         B     STORE
ONES     DC    X'FFFFFFFF'
         END   BEGIN
