* A guest beside it, which counts.
         ORG   X'100'
BEGIN    LA    1,1(1)
         ST    1,512(0)
         B     BEGIN
         END   BEGIN
