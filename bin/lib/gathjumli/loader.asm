* The loader of a deck: the first three cards. The channel reads the first one to location 0, a PSW and two command words,
* which make it read the other two, 72 bytes each, to LOADER, which bin/lib/gathjumli/asm370.py states. The loader then reads the cards of
* the program by SIO and TIO. A card 02 TXT has the address in columns 6 to 8, the length in 11 and 12, and the bytes from 17 on.
* The card 02 END has the address to begin at in columns 6 to 8, and from 17 on what the program has in the channel's status and
* address words, which the loader used.
         START 0
         PSW   0,LOADER
         CCW   X'02',LOADER,X'60',72
         CCW   X'02',LOADER+72,X'20',72
         ORG   LOADER
         BALR  12,0
         USING *,12
         LH    10,2               the device, which initial program loading left here
READ     LA    1,COMMAND
         ST    1,72
         SIO   0(10)
         BNZ   FAILED
TEST     TIO   0(10)
         BC    2,TEST             busy
         BC    8,TEST             no end yet
         BC    1,FAILED           gone
         CLI   68,X'0C'           channel end and device end
         BNE   FAILED
         L     1,CARD+4
         LA    1,0(1)             without the blank before the address
         CLC   CARD+1(3),TXT
         BNE   OTHER
         LH    2,CARD+10
         BCTR  2,0
         EX    2,MOVE
         B     READ
OTHER    CLI   CARD+1,C'E'
         BNE   READ
         MVC   64(12),CARD+16
         BR    1
MOVE     MVC   0(1,1),CARD+16
FAILED   LPSW  STOP
TXT      DC    C'TXT'
COMMAND  CCW   X'02',CARD,X'20',80
STOP     PSW   X'00020000',X'00BAD0'
         ORG   LOADER+144
CARD     DS    CL80
