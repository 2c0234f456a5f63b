* A supervisor that gives the processor to two tasks by turns, each until the interval timer interrupts it. The tasks run in
* the problem state; one counts by ones, the other by threes, each in register 5.
         ORG   X'58'
         DC    X'00000000',A(SWITCH)   the new PSW for external interruptions
         ORG   X'100'
BEGIN    MVC   80(4),ZERO         the timer: its next tick makes it negative
         LPSW  FIRST
* a turn ends: what the task had goes to its own area, and what the other had comes from there
SWITCH   STM   0,15,SAVED
         L     1,CURRENT
         MVC   0(8,1),24          its PSW
         MVC   8(64,1),SAVED      its registers
         L     1,72(1)            the other task
         ST    1,CURRENT
         L     2,TURNS
         LA    2,1(2)
         ST    2,TURNS
         MVC   80(4),ZERO
         MVC   24(8),0(1)
         MVC   SAVED(64),8(1)
         LM    0,15,SAVED
         LPSW  24
ZERO     DC    F'0'
CURRENT  DC    A(FIRST)
TURNS    DC    F'0'
SAVED    DS    16F
* the tasks: PSW, registers, the other one
         ORG   X'200'
FIRST    DC    X'01010000',A(ONES)
         DS    16F
         DC    A(SECOND)
         ORG   X'280'
SECOND   DC    X'01010000',A(THREES)
         DS    16F
         DC    A(FIRST)
         ORG   X'400'
COUNT1   DC    F'0'
COUNT2   DC    F'0'
         ORG   X'800'
ONES     LA    5,1(5)
         ST    5,COUNT1
         B     ONES
THREES   LA    5,3(5)
         ST    5,COUNT2
         B     THREES
         END   BEGIN
