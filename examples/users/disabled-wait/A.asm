* A guest that loads a word, and then a PSW that waits with no interruption enabled.
         ORG   X'100'
BEGIN    L     1,WORD
         LPSW  DONE
WORD     DC    X'00000370'
         ORG   X'110'
DONE     PSW   X'00020000',X'DEAD'
         END   BEGIN
