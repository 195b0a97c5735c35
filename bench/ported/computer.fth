( over the library: basic control )
( a small computer: a byte for each operation, a stack of its own; its program adds up the squares of 1 to 40 )
CREATE PROGRAM 64 ALLOT  CREATE CELLAR 16 CELLS ALLOT  CREATE MEMORY 8 CELLS ALLOT
VARIABLE AT  VARIABLE TOP  VARIABLE RUNS
: , ( c -- ) PROGRAM AT @ + C! 1 AT +! ;
: PUT ( w -- ) TOP @ CELLS CELLAR + ! 1 TOP +! ;
: TAKE ( -- w ) -1 TOP +! TOP @ CELLS CELLAR + @ ;
: NEXT ( -- c ) AT @ PROGRAM + C@ 1 AT +! ;
: MEMORY# ( i -- a ) CELLS MEMORY + ;
0 AT !  1 , 0 ,  3 , 0 ,  1 , 40 ,  3 , 1 ,
  2 , 1 ,  2 , 1 ,  5 ,  2 , 0 ,  4 ,  3 , 0 ,  2 , 1 ,  6 ,  3 , 1 ,  2 , 1 ,  7 , 8 ,  2 , 0 ,  0 ,
: DONE ( operation -- ) CASE
  0 OF 0 RUNS ! ENDOF  1 OF NEXT PUT ENDOF  2 OF NEXT MEMORY# @ PUT ENDOF  3 OF TAKE NEXT MEMORY# ! ENDOF
  4 OF TAKE TAKE + 16383 AND PUT ENDOF  5 OF TAKE TAKE * PUT ENDOF  6 OF TAKE 1- PUT ENDOF
  7 OF NEXT TAKE IF AT ! ELSE DROP THEN ENDOF
  ENDCASE ;
: COMPUTED ( -- w ) 0 AT ! 0 TOP ! 1 RUNS ! BEGIN RUNS @ WHILE NEXT DONE REPEAT TAKE ;
: TURNS 0 DO COMPUTED DROP LOOP ;
: RESULT ." result " COMPUTED . ;
