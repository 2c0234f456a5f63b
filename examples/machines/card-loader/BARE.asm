* Punches 335 cards, which its own reader is given: 35 that load a deck, and the deck of 300. The first card has a PSW and two
* command words, which read the second and transfer to it. Cards 2 to 35 hold 333 command words, ten on a card, each of which reads
* a card: the first 33 of them cards 3 to 35, so that each word stands in storage before the channel comes to it, and the other 300
* the deck. So one channel program, which reads its own words, loads it all.
*
* The deck has a program on its first two cards; it adds the numbers that stand on the other 298, and writes how much that is.
WORDS    EQU   X'1000'             where the command words are read to
DECK     EQU   WORDS+34*80         and behind them the deck
         ORG   X'48'
         DC    A(X'3000')
         ORG   X'78'
         PSW   X'00020000',X'600D'
         ORG   X'100'
*        the cards are made from X'4000' on, the first one first
BEGIN    L     1,=A(X'4000')
         MVC   0(24,1),LOADING
         LA    1,80(1)
*        each of the command words reads to the next 80 bytes
         L     2,=X'02001050'
         LA    3,333
WORD     ST    2,0(1)
         MVC   4(4,1),=X'60000050'
         A     2,=F'80'
         LA    1,8(1)
         BCT   3,WORD
         S     1,=F'8'
         MVI   4(1),X'20'          the last one, which is not chained
*        behind it the card has seven words that are none
         LA    1,64(1)
         MVC   0(160,1),PROGRAM
         LA    1,160(1)
         LA    3,3
NUMBER   MVC   0(5,1),=C'CARD '
         CVD   3,PACKED
         UNPK  5(4,1),PACKED+5(3)
         OI    8(1),X'F0'
         LA    1,80(1)
         LA    3,1(3)
         C     3,=F'301'
         BL    NUMBER
*        one channel program punches them all
         L     1,=A(X'3000')
         L     2,=X'01004000'
         LA    3,335
PUNCH    ST    2,0(1)
         MVC   4(4,1),=X'40000050'
         A     2,=F'80'
         LA    1,8(1)
         BCT   3,PUNCH
         S     1,=F'8'
         MVI   4(1),0
         SIO   X'00D'
         LPSW  WAIT
WAIT     PSW   X'80020000',0
PACKED   DS    D
*        the first card
LOADING  PSW   0,DECK
         CCW   X'02',WORDS,X'60',80
         CCW   X'08',WORDS,0,0
         LTORG
*        the program, which is loaded where the deck is
PROGRAM  DS    0D
         BALR  12,0
         USING *,12
         MVC   X'78'(8),ENDED
         LA    1,PROGRAM+160
         LA    2,298
         SR    3,3
ADD      PACK  SUM,5(4,1)
         CVB   4,SUM
         AR    3,4
         LA    1,80(1)
         BCT   2,ADD
         CVD   3,SUM
         UNPK  TEXT+15(5),SUM
         OI    TEXT+19,X'F0'
         MVC   X'48'(4),WRITE
         SIO   9
         LPSW  TOLD
ENDED    PSW   X'00020000',X'600D'
TOLD     PSW   X'80020000',0
SUM      DS    D
LINE     CCW   X'09',TEXT-PROGRAM+DECK,0,20
WRITE    DC    A(LINE-PROGRAM+DECK)
TEXT     DC    C'298 CARDS, SUM '
         DS    CL5
         END   BEGIN
