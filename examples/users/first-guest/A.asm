* Adds the numbers from 1 to 10, and prints the sum.
PRINTER  EQU   X'00E'              the printer's address
         ORG   X'48'
         DC    A(WRITE)            the channel address word: where the channel program is
         ORG   X'100'
BEGIN    LA    1,10                the next number
         SR    2,2                 the sum
ADD      AR    2,1
         BCT   1,ADD               one less; again unless it is zero
         CVD   2,PACKED            as decimal digits, two a byte
         UNPK  DIGITS,PACKED       as characters, but the last has a sign
         OI    DIGITS+2,X'F0'      which becomes a digit
         SIO   PRINTER             the channel program begins
WORKS    TIO   PRINTER
         BC    2,WORKS             mask 2, condition code 2: it works
         LPSW  DONE
WRITE    CCW   X'09',LINE,0,7      write a line of seven bytes, then space one line
DONE     PSW   X'00020000',0       bit 14: the machine waits, for nothing
LINE     DC    C'SUM '
DIGITS   DS    CL3
PACKED   DS    D
         END   BEGIN
