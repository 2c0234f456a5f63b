* A guest of one instruction, which calls its supervisor with the code 7.
         ORG   X'60'
         PSW   0,X'200'           the new PSW for supervisor calls
         ORG   X'1000'
BEGIN    SVC   7
         END   BEGIN
