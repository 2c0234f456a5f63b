* EX, its target and both operands of that lie in two pages each. The script sets the registers.
         ORG   X'FFE'
BEGIN    EX    0,0(0,9)
         ORG   X'2FFE'
         MVC   0(4,10),0(11)
         ORG   X'6FFF'
         DC    X'11223344'
         END   BEGIN
