* A clock that the interval timer drives, and a console that answers lines; all of it is done by interruptions.
*
* The machine waits, enabled for external conditions and for channel 0. A tick of the timer makes it negative: the clock is then
* one second on, and the timer is zero again. A line that is typed gives attention; it is read, and answered by a line that
* begins with the time:
*
*        TIME              nothing more than the time
*        SET hh:mm:ss      the clock is set
*        ALARM hh:mm:ss    a line is written when the clock has come to this time
*        STOP              the program ends
*        anything else     the same line
*
* The console does one thing at a time. STATE says which, and an interruption of the console leads to what comes next: after a
* line was read it is answered; after one was written the next is read, if attention was told with the end, or else the console
* is idle. An alarm that comes meanwhile waits for the end of what is going on.
*
* The program ends in a disabled wait, whose address is 600D, or where something went otherwise BAD0 (the console) or BAD1 (the
* program itself).
*
         MACRO
         REGISTER
         LCLA  &N
.NEXT    ANOP
R&N      EQU   &N
&N       SETA  &N+1
         AIF   (&N LE 15).NEXT
         MEND
*
*        a handler begins and ends: all registers are kept in an area of the low end of storage
         MACRO
&NAME    HANDLER &AREA
&NAME    STM   R0,R15,&AREA
         L     R12,BASE
         MEND
         MACRO
&NAME    RESUME &AREA,&OLD
&NAME    LM    R0,R15,&AREA
         LPSW  &OLD
         MEND
*
*        a branch where the line that was read begins with a word, as its own word or the whole line
         MACRO
&NAME    IS    &WORD,&THEN
         LCLA  &LONG
         LCLC  &TEXT
&LONG    SETA  K'&WORD+1
&TEXT    SETC  '&WORD '
&NAME    CLC   INPUT(&LONG),=C'&TEXT'
         BE    &THEN
         MEND
*
*        two digits of the time, which register 5 has as so many units, and what is left is divided on
         MACRO
&NAME    PART  &TO
&NAME    SR    R4,R4
         D     R4,=F'60'
         CVD   R4,PACKED
         UNPK  &TO.(2),PACKED+6(2)
         OI    &TO+1,C'0'
         MEND
*
*        two digits of the line, added to the units in register 5
         MACRO
&NAME    UNITS &FROM
&NAME    PACK  PACKED,&FROM
         CVB   R1,PACKED
         MH    R5,=H'60'
         AR    R5,R1
         MEND
*
         REGISTER
CONSOLE  EQU   X'009'
CLOCKS   START 0
         ORG   X'18'
OLDEXT   DS    D                  the old PSW of external interruptions
         ORG   X'38'
OLDIO    DS    D                  the old PSW of input and output
CSW      DS    D                  the channel status word
CAW      DS    F                  the channel address word
         ORG   X'50'
TIMER    DC    F'0'
         ORG   X'58'
         PSW   0,TICKED           the new PSW for external interruptions
         ORG   X'68'
         PSW   X'00020000',X'BAD1' for program interruptions
         ORG   X'78'
         PSW   0,DEVICE           for input and output
         ORG   X'80'
KEPTEXT  DS    16F                what the handlers keep
KEPTIO   DS    16F
BASE     DC    A(HERE)
*
         ORG   X'200'
BEGIN    BALR  R12,0
         USING *,R12
HERE     LPSW  WAITING            from here on interruptions do everything
*
*        a tick: one second more, and an alarm
TICKED   HANDLER KEPTEXT
         TM    OLDEXT+3,X'80'     the timer, and not the interrupt key
         BZ    TOCK
         SR    R1,R1
         ST    R1,TIMER
         L     R1,CLOCK
         LA    R1,1(R1)
         C     R1,DAY
         BL    TODAY
         SR    R1,R1
TODAY    ST    R1,CLOCK
         C     R1,ALARM
         BNE   TOCK
         MVI   RINGS,1
         CLI   STATE,IDLE
         BNE   TOCK
         BAL   R14,RING
TOCK     RESUME KEPTEXT,OLDEXT
*
*        the console: attention, or the end of a program
DEVICE   HANDLER KEPTIO
         CLC   OLDIO+2(2),=AL2(CONSOLE)
         BNE   SERVED
         TM    CSW+4,X'73'        anything but attention, channel end and device end
         BNZ   FAILED
         CLI   CSW+5,0
         BNE   FAILED
         CLI   STATE,READING
         BE    READ
         CLI   STATE,WRITING
         BE    WRITTEN
         B     NEXT               it was idle
READ     BAL   R14,ANSWER
         B     SERVED
WRITTEN  MVI   STATE,IDLE
         CLI   RINGS,1
         BE    ALARMED
NEXT     TM    CSW+4,X'80'        attention: a line waits
         BZ    SERVED
         MVI   STATE,READING
         MVI   INPUT,C' '
         MVC   INPUT+1(L'INPUT-1),INPUT
         LA    R1,READS
         BAL   R14,START
         B     SERVED
ALARMED  BAL   R14,RING
SERVED   RESUME KEPTIO,OLDIO
*
*        RING: writes the line of the alarm
RING     ST    R14,BACK1
         MVI   RINGS,0
         BAL   R14,STAMP
         MVC   ECHO(L'BELL),BELL
         LA    R0,L'STAMPED+1+L'BELL
         BAL   R14,WRITE
         L     R14,BACK1
         BR    R14
*
*        ANSWER: does what the line says, and answers it
ANSWER   ST    R14,BACK1
         LA    R6,L'INPUT         how many characters it has
         SH    R6,CSW+6
         IS    STOP,FINISH
         IS    TIME,JUSTTIME
         IS    SET,SETTING
         IS    ALARM,WAKING
         BAL   R14,STAMP          the same line
         MVC   ECHO,INPUT
         LA    R0,L'STAMPED+1(R6)
         B     SAY
SETTING  LA    R7,INPUT+4
         BAL   R14,PARSE
         ST    R5,CLOCK
JUSTTIME BAL   R14,STAMP
         LA    R0,L'STAMPED
         B     SAY
WAKING   LA    R7,INPUT+6
         BAL   R14,PARSE
         ST    R5,ALARM
         BAL   R14,STAMP
         MVC   ECHO(L'SET),SET
         MVC   ECHO+L'SET(8),INPUT+6
         LA    R0,L'STAMPED+1+L'SET+8
SAY      BAL   R14,WRITE
         L     R14,BACK1
         BR    R14
*
*        PARSE: the time hh:mm:ss at register 7 as seconds in register 5
PARSE    SR    R5,R5
         UNITS 0(2,R7)
         UNITS 3(2,R7)
         UNITS 6(2,R7)
         BR    R14
*
*        STAMP: the time to the beginning of the line
STAMP    L     R5,CLOCK
         PART  STAMPED+6
         PART  STAMPED+3
         PART  STAMPED
         BR    R14
*
*        WRITE: so many characters of the line as register 0 says; START: the channel program at register 1
WRITE    STH   R0,WRITES+6
         MVI   STATE,WRITING
         LA    R1,WRITES
START    ST    R1,CAW
         SIO   CONSOLE
         BZR   R14
FAILED   LPSW  BAD
FINISH   LPSW  DONE
*
*        constants and areas
WAITING  PSW   X'81020000',0      channel 0, external conditions, wait
DONE     PSW   X'00020000',X'600D'
BAD      PSW   X'00020000',X'BAD0'
READS    CCW   X'0A',INPUT,X'20',L'INPUT
WRITES   CCW   X'09',STAMPED,X'20',0
PACKED   DS    D
CLOCK    DC    F'0'               seconds of the day
ALARM    DC    F'-1'
DAY      DC    A(24*60*60)
BACK1    DS    F
*        what the console does
IDLE     EQU   0
READING  EQU   1
WRITING  EQU   2
STATE    DC    AL1(IDLE)
RINGS    DC    AL1(0)             an alarm is to be written
BELL     DC    C'*** ALARM ***'
SET      DC    C'ALARM AT '
STAMPED  DC    C'00:00:00'
         DC    C' '
ECHO     DC    CL80' '
INPUT    DC    CL80' '
         END   BEGIN
