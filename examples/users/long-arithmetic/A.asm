* Products and quotients of 64 bits, shifts of pairs of registers, compare and swap, and a loop by BXLE. The results are five words.
         ORG   X'100'
BEGIN    L     5,BIG
         M     4,FACTOR           the product to registers 4 and 5
         STM   4,5,PRODUCT
         D     4,BIG              and back: no remainder in 4, the factor in 5
         AR    5,4
         ST    5,RESULTS
         LM    4,5,PRODUCT
         SRDA  4,9                the pair divided by 512
         ST    5,RESULTS+4
         SLDA  4,3
         SLA   5,2
         ST    5,RESULTS+8
         L     1,LOCK
         LA    3,77
         CS    1,3,LOCK           equal: the lock takes 77
         BNE   FAILED
         CS    1,3,LOCK           not equal any more: register 1 takes it
         BE    FAILED
         ST    1,RESULTS+12
         LA    2,1                1 + 4 + 7 + .. + 100
         SR    1,1
         LM    4,5,STEP
ADD      AR    1,2
         BXLE  2,4,ADD
         ST    1,RESULTS+16
         LPSW  DONE
FAILED   LPSW  STOP
DONE     DC    0D'0',X'000200000000600D'
STOP     DC    0D'0',X'0002000000000BAD'
STEP     DC    F'3,100'
BIG      DC    F'123456789'
FACTOR   DC    F'-98765'
LOCK     DC    F'4711'
PRODUCT  DC    0D'0',2F'0'
         ORG   X'200'
RESULTS  DS    5F
         END   BEGIN
