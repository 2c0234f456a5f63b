* A program that lets external conditions interrupt it, while its timer is about to.
         ORG   X'50'
         DC    X'00000100'        the timer
         ORG   X'58'
         PSW   0,X'300'           the new PSW for external interruptions
         ORG   X'100'
BEGIN    SSM   MASK
         ORG   X'200'
MASK     DC    X'01'
         END   BEGIN
