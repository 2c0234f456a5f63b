* A supervisor and two tasks in the problem state, which give way to each other by SVC 0 and ask for a copy of a line by SVC 1,
* until the processor was given away as many times as register 1 says.
         ORG   X'60'
         DC    X'00000000',A(CALLED)   the new PSW for supervisor calls
         ORG   X'200'
BEGIN    LA    12,X'200'
         USING BEGIN,12
         ST    1,LEFT
         LA    2,FIRST
         ST    2,CURRENT
         LM    0,15,FIRST+8
         LPSW  FIRST
*        a call: interruptions stay off until the task goes on
CALLED   STM   0,15,SAVED
         LA    12,X'200'
         CLI   35,1               the number of the call
         BE    COPY
         L     3,CURRENT
         MVC   0(8,3),32          its PSW
         MVC   8(64,3),SAVED      its registers
         L     3,72(3)            the other task
         ST    3,CURRENT
         L     4,LEFT
         BCT   4,GOES
         LPSW  DONE
GOES     ST    4,LEFT
         MVC   OLD(8),0(3)
         STNSM MASK,X'FF'
         SSM   MASK
         LM    0,15,8(3)
         LPSW  OLD-BEGIN+X'200'(0)
COPY     LM    2,3,SAVED+8        to, from
         MVC   0(80,2),0(3)
         LM    0,15,SAVED
         LPSW  32
DONE     DC    0D'0',X'0002000000000900'
OLD      DS    D
LEFT     DS    F
CURRENT  DS    F
MASK     DS    X
         DS    0F
SAVED    DS    16F
*        the tasks: PSW, registers, the other one
         DS    0D
FIRST    DC    X'00010000',A(TASK)
         DC    F'0,1,0,0,0,0,0,0,0,0,0,0,512,0,0,4096'
         DC    A(SECOND)
         DS    0D
SECOND   DC    X'00010000',A(TASK)
         DC    F'0,2,0,0,0,0,0,0,0,0,0,0,512,0,0,6144'
         DC    A(FIRST)
*        a task sums its words, moves a line, and gives way; register 15 has its area
TASK     LR    4,15
         LA    5,16
         SR    6,6
SUM      A     6,0(4)
         LA    4,4(4)
         BCT   5,SUM
         ST    6,128(15)
         AH    1,128+2(15)
         LA    2,256(15)
         LA    3,384(15)
         MVI   0(3),C' '
         MVC   1(79,3),0(3)
         SVC   1
         CLC   0(80,2),0(3)
         BNE   TASK
         SVC   0
         B     TASK
         END   BEGIN
