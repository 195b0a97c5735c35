( square roots by Newton, and sines in thousandths )
: BETTER ( n r -- n r ) OVER OVER / + 2/ ;
: ROOT ( n -- r ) DUP 2 < IF EXIT THEN DUP 2/ 8 0 DO BETTER LOOP SWAP DROP ;
: CUBE ( x -- x ) DUP DUP 1000 */ 1000 */ ;
: SINE ( x -- y ) DUP CUBE 6 / - ;
: LIMITED ( x -- y ) SINE 250 + 2/ 0 MAX 900 MIN ;
: ROOTS ( -- sum ) 0 400 1 DO I 75 * ROOT I 3 * LIMITED + + 32767 AND LOOP ;
: TURNS 0 DO ROOTS DROP LOOP ;
: RESULT ." result " ROOTS . ;
