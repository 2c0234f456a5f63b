* A machine that waits for the interrupt key: its PSW comes from the script.
         ORG   X'50'
         DC    X'FFFFFF00'        the timer, negative
         ORG   X'58'
         PSW   0,X'300'           the new PSW for external interruptions
         END
