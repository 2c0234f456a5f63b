* Prints the primes below 500 on the console, ten a line, and how many they are.
*
* The sieve has a byte for each number: zero for those that nothing divides so far. Each number that is reached with a byte
* of zero is prime, and the bytes of its multiples become one. A line of the table is made digit by digit: a number goes
* through CVD and UNPK to five digits, of which the zeros before the first other digit become blanks.
*
* The console is served by the channel: the program starts a channel program and waits for its interruption. It ends in a
* disabled wait, whose address is 600D, or where something went otherwise BAD0 (a device) or BAD1 (the program itself).
*
*        the names of the registers, R0 to R15
         MACRO
         REGISTER
         LCLA  &N
.NEXT    ANOP
R&N      EQU   &N
&N       SETA  &N+1
         AIF   (&N LE 15).NEXT
         MEND
*
*        a routine begins and ends: its return address stands in a word of its own
         MACRO
&NAME    ENTER
&NAME    ST    R14,RET&SYSNDX
         B     GO&SYSNDX
RET&SYSNDX DC  F'0'
GO&SYSNDX DS   0H
         GBLC  &RETURN
&RETURN  SETC  'RET&SYSNDX'
         MEND
*
         MACRO
&NAME    LEAVE
         GBLC  &RETURN
&NAME    L     R14,&RETURN
         BR    R14
         MEND
*
*        an area takes one character everywhere
         MACRO
&NAME    FILL  &AREA,&WITH
&NAME    MVI   &AREA,&WITH
         MVC   &AREA+1(L'&AREA-1),&AREA
         MEND
*
*        a text goes to the beginning of an area
         MACRO
&NAME    TEXT  &TO,&WHAT
         LCLA  &LONG
&LONG    SETA  K'&WHAT-2
         AIF   (&LONG GT 0).FINE
         MNOTE 'TEXT WANTS A TEXT, AND NOT &WHAT'
         MEXIT
.FINE    ANOP
&NAME    MVC   &TO.(&LONG),=C&WHAT
         MEND
*
         REGISTER
LIMIT    EQU   500                the first number that is not looked at
COLUMNS  EQU   10                 primes on a line
WIDTH    EQU   6                  characters of each
CONSOLE  EQU   X'009'
*
*        the low end of storage
SIEVE    START 0
         ORG   X'40'
CSW      DS    D                  the channel status word
CAW      DS    F                  the channel address word
         ORG   X'68'
         PSW   X'00020000',X'BAD1' the new PSW for program interruptions
         ORG   X'78'
         PSW   0,ENDED            the new PSW for input and output
*
         ORG   X'200'
BEGIN    BALR  R12,0
         USING *,R12
         TEXT  LINE,'PRIMES BELOW'
         LA    R1,LIMIT
         BAL   R14,NUMBER
         MVC   LINE+12(WIDTH),DIGITS
         BAL   R14,PRINT
         BAL   R14,CLEAR
         BAL   R14,STRIKE
         BAL   R14,TABLE
         BAL   R14,TOTAL
         LPSW  DONE
*
*        CLEAR: the bytes of the sieve become zero, those of 0 and 1 become one
CLEAR    ENTER
         L     R2,=A(BYTES)
         LA    R3,LIMIT
         LR    R4,R2
         SR    R5,R5              no bytes come from elsewhere: the pad is zero
         MVCL  R2,R4
         L     R2,=A(BYTES)
         MVC   0(2,R2),=X'0101'
         LEAVE
*
*        STRIKE: the bytes of all that are multiples of a smaller prime become one. Multiples below the square of a prime
*        are those of smaller ones too, so nothing is left to do where the square is past the end.
STRIKE   ENTER
         L     R2,=A(BYTES)
         LA    R3,2               the number that is looked at
CANDIDAT LR    R5,R3
         MR    R4,R3              its square
         C     R5,=A(LIMIT)
         BNL   STRUCK
         LA    R1,0(R3,R2)
         CLI   0(R1),0
         BNE   COMPOSIT
MULTIPLE LA    R1,0(R5,R2)
         MVI   0(R1),1
         AR    R5,R3
         C     R5,=A(LIMIT)
         BL    MULTIPLE
COMPOSIT LA    R3,1(R3)
         B     CANDIDAT
STRUCK   LEAVE
*
*        TABLE: prints what is left, line by line
TABLE    ENTER
         SR    R3,R3              the number that is looked at
         SR    R6,R6              how many primes there were
         LA    R7,LINE            where the next one goes
LOOK     L     R2,=A(BYTES)
         AR    R2,R3
         CLI   0(R2),0
         BNE   NOPRIME
         LA    R6,1(R6)
         LR    R1,R3
         BAL   R14,NUMBER
         MVC   0(WIDTH,R7),DIGITS
         LA    R7,WIDTH(R7)
         LA    R1,LINE+COLUMNS*WIDTH
         CR    R7,R1
         BL    NOPRIME
         BAL   R14,PRINT
         LA    R7,LINE
NOPRIME  LA    R3,1(R3)
         C     R3,=A(LIMIT)
         BL    LOOK
         LA    R1,LINE            a line that is not full
         CR    R7,R1
         BE    LISTED
         BAL   R14,PRINT
LISTED   LEAVE
*
*        TOTAL: prints how many primes there were, which register 6 has
TOTAL    ENTER
         LR    R1,R6
         BAL   R14,NUMBER
         MVC   LINE(WIDTH),DIGITS
         TEXT  LINE+WIDTH,' PRIMES'
         BAL   R14,PRINT
         LEAVE
*
*        NUMBER: register 1 as WIDTH characters in DIGITS, without zeros before it
NUMBER   ENTER
         CVD   R1,PACKED
         UNPK  DIGITS,PACKED+4(4)
         OI    DIGITS+WIDTH-1,C'0' a digit in place of the sign
         LA    R1,DIGITS
         LA    R0,WIDTH-1         the last digit stays, also where it is zero
ZERO     CLI   0(R1),C'0'
         BNE   SHOWN
         MVI   0(R1),C' '
         LA    R1,1(R1)
         BCT   R0,ZERO
SHOWN    LEAVE
*
*        PRINT: the line goes to the console without the blanks at its end, and is blank then
PRINT    ENTER
         LA    R1,LINE+L'LINE-1
         LA    R0,L'LINE
TRIM     CLI   0(R1),C' '
         BNE   TRIMMED
         BCTR  R1,0
         BCT   R0,TRIM
         LA    R0,1
TRIMMED  STH   R0,WRITE+6         the count of the command word
         LA    R1,WRITE
         LA    R2,CONSOLE
         BAL   R14,DOIO
         FILL  LINE,C' '
         LEAVE
*
*        DOIO: starts the channel program at register 1 on the device of register 2, and waits until it has ended well
DOIO     ST    R1,CAW
         SIO   0(R2)
         BNZ   FAILED
SLEEP    LPSW  WAITING
ENDED    CH    R2,X'3A'           an interruption of another device does not count
         BNE   SLEEP
         CLC   CSW+4(2),=X'0C00'  channel end, device end, and nothing else
         BNE   FAILED
         BR    R14
FAILED   LPSW  STOP
*
*        constants and areas
DONE     PSW   X'00020000',X'600D'
STOP     PSW   X'00020000',X'BAD0'
WAITING  PSW   X'FE020000',0
WRITE    CCW   X'09',LINE,X'20',0
PACKED   DS    D
DIGITS   DC    CL(WIDTH)' '
LINE     DC    CL(COLUMNS*WIDTH)' '
         LTORG
BYTES    DS    (LIMIT)X
         END   BEGIN
