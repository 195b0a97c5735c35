( over the library: basic )
( how soon a point leaves a circle, over a field of points, in numbers of 256 parts )
: TIMES ( n n -- n ) 256 */ ;
VARIABLE CX  VARIABLE CY
: TURN ( x y -- x y ) 2DUP TIMES 2* CY @ + >R  DUP TIMES SWAP DUP TIMES SWAP - CX @ + R> ;
: OUTSIDE? ( x y -- x y f ) 2DUP DUP TIMES SWAP DUP TIMES + 1024 > ;
: SOON ( cx cy -- n ) CY ! CX ! 0 0 0 BEGIN DUP 16 < IF >R OUTSIDE? R> SWAP NOT ELSE FALSE THEN
  WHILE >R TURN R> 1+ REPEAT NIP NIP ;
: DRAWN ( -- n ) 0 320 -320 DO 192 -576 DO I J SOON + 8191 AND 96 +LOOP 80 +LOOP ;
: TURNS 0 DO DRAWN DROP LOOP ;
: RESULT ." result " DRAWN . ;
