* A supervisor that its task cannot harm. Storage has keys: 1 for the blocks of the task, at 1000 and 1800, and 0 for the
* supervisor's, of which the one at 800 may not even be fetched from. The task has key 1 and the problem state. It tries four
* things that it may not do; each is a program interruption, whose code the supervisor notes before it lets the task go on.
         ORG   X'60'
         DC    X'00000000',A(CALLED)   the new PSW for supervisor calls
         DC    X'00000000',A(CAUGHT)   the new PSW for program interruptions
         ORG   X'100'
BEGIN    LA    1,X'10'            key 1
         LA    2,X'800'
         SLL   2,1                block 1000
         SSK   1,2
         LA    2,X'800'(2)        block 1800
         SSK   1,2
         LA    1,8                key 0, and no fetching
         LA    2,X'800'
         SSK   1,2
         LA    3,NOTES
         LPSW  TASK
CAUGHT   MVC   0(2,3),42          the interruption code
         LA    3,2(3)
         LPSW  40                 the task goes on
CALLED   LPSW  DONE
TASK     DC    0D'0',X'0011000000001000'
DONE     DC    0D'0',X'000200000000600D'
         ORG   X'200'
NOTES    DS    XL16
         ORG   X'800'
SECRET   DC    X'5EC2E700'
         ORG   X'1000'
         SR    4,4
         ST    4,NOTES(0)         to store into the supervisor's block: protection
         L     5,SECRET(0)        to fetch what it may not see: protection
         SSK   4,4                to set a key: privileged operation
         LPSW  TASK(0)            to load a PSW: privileged operation
         BALR  6,0
         ST    6,X'7F2'(6)        to store into its own block
         SVC   0
         END   BEGIN
