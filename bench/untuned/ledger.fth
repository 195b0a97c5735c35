( amounts as texts of two places after the point, each at the right of its line )
CREATE ROW 32 ALLOT  VARIABLE TOTAL
: MONEY ( n -- a n ) DUP ABS 0 <# # # 46 HOLD #S ROT SIGN #> ;
: PLACED ( a n -- ) ROW 32 32 FILL 20 OVER - ROW + SWAP CMOVE ;
: BYTES ( -- sum ) 0 20 0 DO ROW I + C@ + LOOP ;
: REPORT ( -- sum ) 0 TOTAL ! 0
  40 0 DO I 37 * 500 - DUP TOTAL +! MONEY PLACED BYTES + 8191 AND LOOP
  TOTAL @ MONEY PLACED BYTES + ;
: TURNS 0 DO REPORT DROP LOOP ;
: RESULT ." result " REPORT . ;
