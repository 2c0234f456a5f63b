* A move of 600 bytes from 400, in three parts. The script sets the registers; letters mark the end of the first part and of all.
         ORG   X'100'
BEGIN    MVCL  2,4
         ORG   X'4FC'
         DC    C'ABCDEFGH'
         ORG   X'650'
         DC    C'JKLMNOPQ',X'FFFFFFFF'
         END   BEGIN
