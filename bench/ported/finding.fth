( over the library: basic source print double double2 dump loops strings search )
( how often words are found in a text, by SEARCH, and where )
CREATE TEXT 400 ALLOT  VARIABLE SIZE  VARIABLE SUM
: WRITTEN 126 WORD COUNT DUP SIZE ! TEXT SWAP CMOVE ;
WRITTEN a save changes all blocks that were changed since the last one, or none: the blocks are those of the last save that had returned ~
: TIMES-FOUND ( a n -- ) TEXT SIZE @ BEGIN 2OVER SEARCH WHILE DUP SUM @ + 8191 AND SUM ! 1 /STRING REPEAT 2DROP 2DROP ;
: FOUND ( -- n ) 0 SUM ! S" save" TIMES-FOUND S" the " TIMES-FOUND S" block" TIMES-FOUND S" absent" TIMES-FOUND SUM @ ;
: TURNS 0 DO FOUND DROP LOOP ;
: RESULT ." result " FOUND . ;
