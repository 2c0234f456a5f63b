* The same instructions as A's, with a new PSW for the program interruption in which they end here.
         ORG   X'68'
         PSW   0,X'500'
         ORG   X'FFE'
BEGIN    EX    0,0(0,9)
         ORG   X'2FFE'
         MVC   0(4,10),0(11)
         END   BEGIN
