* Adds the numbers in columns 1 to 3 of all cards, and prints the sum.
READER   EQU   X'00C'
PRINTER  EQU   X'00E'
         ORG   X'40'
CSW      DS    D                   the channel status word
CAW      DS    F                   the channel address word
         ORG   X'100'
BEGIN    SR    2,2                 the sum
NEXT     LA    1,READ
         ST    1,CAW
         SIO   READER
READS    TIO   READER
         BC    2,READS             mask 2, condition code 2: it works
         TM    CSW+4,X'01'         unit exception: no card was left
         BO    PRINT
         PACK  PACKED,CARD(3)
         CVB   1,PACKED
         AR    2,1
         B     NEXT
PRINT    CVD   2,PACKED
         UNPK  DIGITS,PACKED
         OI    DIGITS+2,X'F0'
         LA    1,WRITE
         ST    1,CAW
         SIO   PRINTER
WRITES   TIO   PRINTER
         BC    2,WRITES
         LPSW  DONE
READ     CCW   X'02',CARD,0,80     read the next card
WRITE    CCW   X'09',LINE,0,7
DONE     PSW   X'00020000',0
LINE     DC    C'SUM '
DIGITS   DS    CL3
PACKED   DS    D
CARD     DS    CL80
         END   BEGIN
