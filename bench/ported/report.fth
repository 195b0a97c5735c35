( over the library: basic source print double double2 loops strings )
( lines of a report: an amount with its decimals in a field, a day, a mark; what would be printed is added up )
VARIABLE SUM
: ADDED ( a n -- ) OVER + SWAP DO I C@ SUM @ 3 * + 8191 AND SUM ! LOOP ;
: AMOUNT ( n -- a n ) DUP ABS 0 <# # # 46 HOLD #S ROT 0< IF 45 HOLD THEN #> ;
: DAY ( n -- a n ) 0 <# # # 58 HOLD # # #> ;
: PADDED ( a n width -- ) OVER - 0 MAX 0 ?DO SUM @ 32 + 8191 AND SUM ! LOOP ADDED ;
: LINE ( i -- ) DUP 60 /MOD 100 * + DAY ADDED  DUP 317 * 16383 AND 9000 - DUP AMOUNT 10 PADDED
  0< IF S" below" ADDED THEN 7 MOD 0= IF S" -- " ADDED THEN ;
: REPORTED ( -- n ) 0 SUM ! 30 0 DO I LINE LOOP SUM @ ;
: TURNS 0 DO REPORTED DROP LOOP ;
: RESULT ." result " REPORTED . ;
