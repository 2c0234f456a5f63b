* The guest of BETA: the word where register 1 points goes to 200.
         ORG   X'100'
BEGIN    L     1,0(0,1)
         ST    1,X'200'(0)
         LPSW  DONE
         ORG   X'110'
DONE     PSW   X'00020000',0      waits for ever
         ORG   X'1000'
         DC    X'BBBBBBBB'
         END   BEGIN
