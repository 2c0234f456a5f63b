* Sorts twelve signed words by exchanging neighbours that stand in the wrong order.
         ORG   X'100'
BEGIN    LA    3,11               so many pairs are left to look at
PASS     LR    4,3
         LA    5,TABLE
PAIR     L     6,0(5)
         L     7,4(5)
         CR    6,7
         BNH   RIGHT
         ST    7,0(5)
         ST    6,4(5)
RIGHT    LA    5,4(5)
         BCT   4,PAIR
         BCT   3,PASS             the greatest of this pass stands at its end
         LPSW  DONE
DONE     DC    0D'0',X'000200000000600D'
         ORG   X'200'
TABLE    DC    F'17,-3,2147483647,0,-2147483647,99,100,5,5,1000000,-1,42'
         END   BEGIN
