* Lists the cards of the reader on the printer, with headings, page numbers and totals.
*
* A card has a name in columns 1 to 20 and an amount in columns 21 to 26, as digits with blanks or zeros before them. A line
* has the number of the card, the name and the amount. Each page begins with a heading and has at most PERPAGE cards; under the
* last card of a page stands the sum so far. When the reader has no card any more (unit exception), totals are printed.
*
* Card, line and heading are described by dummy sections, so that their fields have names and lengths. The program ends in a
* disabled wait, whose address is 600D, or where something went otherwise BAD0 (a device) or BAD1 (the program itself).
*
         MACRO
         REGISTER
         LCLA  &N
.NEXT    ANOP
R&N      EQU   &N
&N       SETA  &N+1
         AIF   (&N LE 15).NEXT
         MEND
*
*        a routine begins: its return address stands in the word of this name; RETURN ends it
         MACRO
&NAME    ENTER &KEPT
&NAME    ST    R14,&KEPT
         MEND
         MACRO
&NAME    RETURN &KEPT
&NAME    L     R14,&KEPT
         BR    R14
         MEND
*
*        an area is blank
         MACRO
&NAME    BLANK &AREA
&NAME    MVI   &AREA,C' '
         MVC   &AREA+1(L'&AREA-1),&AREA
         MEND
*
*        register R1 as digits, with blanks in place of the zeros before them
         MACRO
&NAME    EDIT  &TO
&NAME    LA    R2,&TO
         LA    R3,L'&TO
         BAL   R14,DIGITS
         MEND
*
*        the line goes to the printer by a command: no space behind it, or one, two or three lines
         MACRO
&NAME    PUT   &SPACES=1
         LCLA  &CODE
&CODE    SETA  1+8*&SPACES
&NAME    MVI   WRITE,&CODE
         BAL   R14,PRINT
         MEND
*
         REGISTER
PERPAGE  EQU   5                  cards on a page
READER   EQU   X'00C'
PRINTER  EQU   X'00E'
LONGLINE EQU   37
*
*        what a card and a line look like
CARD     DSECT
NAME     DS    CL20
AMOUNT   DS    CL6
         DS    CL54
LONGCARD EQU   *-CARD
DETAIL   DSECT
NUMBER   DS    CL4
         DS    CL2
WHO      DS    CL20
         DS    CL2
SUM      DS    CL9
HEADING  DSECT
TITLE    DS    CL28
         DS    C
WORD     DS    CL4
PAGE     DS    CL4
*
*        the low end of storage
LISTING  START 0
         ORG   X'40'
CSW      DS    D                  the channel status word
CAW      DS    F                  the channel address word
         ORG   X'68'
         PSW   X'00020000',X'BAD1' the new PSW for program interruptions
         ORG   X'78'
         PSW   0,ENDED            the new PSW for input and output
*
         ORG   X'200'
BEGIN    BALR  R12,0
         USING *,R12
         LA    R8,INPUT
         LA    R9,LINE
         USING CARD,R8
         USING DETAIL,R9
         SR    R4,R4              cards so far
         SR    R5,R5              their sum
         SR    R6,R6              pages so far
         SR    R7,R7              cards that the page has room for
*
*        card by card
CARDS    LA    R1,READ
         LA    R2,READER
         BAL   R14,DOIO
         CLI   CSW+4,X'0D'        unit exception: there was no card any more
         BE    LAST
         CLC   CSW+4(2),=X'0C00'
         BNE   FAILED
         LTR   R7,R7
         BNZ   ROOM
         BAL   R14,NEWPAGE
ROOM     LA    R4,1(R4)
         LR    R1,R4
         EDIT  NUMBER
         MVC   WHO,NAME
         BAL   R14,VALUE
         AR    R5,R1
         EDIT  SUM
         PUT
         BCT   R7,CARDS
         BAL   R14,SUBTOTAL
         B     CARDS
*
*        the end: the last page's sum, unless it was printed, and the totals on a page of their own
LAST     LTR   R7,R7
         BZ    TOTALS
         BAL   R14,SUBTOTAL
TOTALS   BAL   R14,NEWPAGE
         LR    R1,R4
         EDIT  NUMBER
         MVC   WHO(5),=C'CARDS'
         PUT
         LR    R1,R6
         EDIT  NUMBER
         MVC   WHO(5),=C'PAGES'
         PUT
         BAL   R14,SUBTOTAL
         LPSW  DONE
*
*        VALUE: the amount of the card in register 1. Blanks are as zeros to PACK, but for the sign of the last column
VALUE    ENTER BACK1
         MVC   ZONED,AMOUNT
         OI    ZONED+L'ZONED-1,X'F0'
         PACK  PACKED,ZONED
         CVB   R1,PACKED
         RETURN BACK1
*
*        SUBTOTAL: prints the sum so far, with a line of space before it
SUBTOTAL ENTER BACK1
         MVI   WRITE,X'0B'        space one line
         BAL   R14,PRINT
         MVC   WHO(10),=C'SUM SO FAR'
         LR    R1,R5
         EDIT  SUM
         PUT
         RETURN BACK1
*
*        NEWPAGE: the heading of the next page
NEWPAGE  ENTER BACK1
         MVI   WRITE,X'8B'        skip to the first line of a page
         BAL   R14,PRINT
         LA    R6,1(R6)
         LA    R7,PERPAGE
         DROP  R9
         USING HEADING,R9
         MVC   TITLE,=CL28'  NO  NAME'
         MVC   WORD,=C'PAGE'
         LR    R1,R6
         EDIT  PAGE
         DROP  R9
         USING DETAIL,R9
         PUT   SPACES=2
         RETURN BACK1
*
*        DIGITS: register 1 as so many digits as register 3 says, at the place that register 2 says
DIGITS   ENTER BACK2
         CVD   R1,PACKED
         UNPK  UNPACKED,PACKED
         OI    UNPACKED+L'UNPACKED-1,C'0'
         LA    R1,UNPACKED+L'UNPACKED
         SR    R1,R3
         BCTR  R3,0
         EX    R3,MOVE
         LTR   R3,R3
         BZ    EDITED
ZERO     CLI   0(R2),C'0'
         BNE   EDITED
         MVI   0(R2),C' '
         LA    R2,1(R2)
         BCT   R3,ZERO
EDITED   RETURN BACK2
MOVE     MVC   0(0,R2),0(R1)
*
*        PRINT: the command that stands in WRITE, with the line, which is blank then
PRINT    ENTER BACK2
         LA    R1,WRITE
         LA    R2,PRINTER
         BAL   R14,DOIO
         CLC   CSW+4(2),=X'0C00'
         BNE   FAILED
         BLANK LINE
         RETURN BACK2
*
*        DOIO: starts the channel program at register 1 on the device of register 2, and waits until it has ended
DOIO     ST    R1,CAW
         SIO   0(R2)
         BNZ   FAILED
SLEEP    LPSW  WAITING
ENDED    CH    R2,X'3A'           an interruption of another device does not count
         BNE   SLEEP
         BR    R14
FAILED   LPSW  STOP
*
*        constants and areas
DONE     PSW   X'00020000',X'600D'
STOP     PSW   X'00020000',X'BAD0'
WAITING  PSW   X'FE020000',0
READ     CCW   X'02',INPUT,0,LONGCARD
WRITE    CCW   X'09',LINE,X'20',LONGLINE
PACKED   DS    D
BACK1    DS    F
BACK2    DS    F
ZONED    DS    CL6
UNPACKED DS    CL15
LINE     DC    CL(LONGLINE)' '
         LTORG
INPUT    DS    CL(LONGCARD)
         END   BEGIN
