( over the library: basic )
( in how many ways six queens stand on a board of six by six, none beside another's line )
6 CONSTANT SIZE
: FLAGS ( n -- ) CREATE HERE OVER ALLOT SWAP 0 FILL DOES> + ;
8 FLAGS COLUMN  16 FLAGS RISING  16 FLAGS FALLING
VARIABLE WAYS  VARIABLE 'ROW
: MARKS ( flag row column -- ) DUP >R  2DUP + RISING >R  - SIZE + FALLING  OVER SWAP C!  DUP R> C!  R> COLUMN C! ;
: FREE? ( row column -- f ) DUP COLUMN C@ IF 2DROP FALSE EXIT THEN
  2DUP + RISING C@ IF 2DROP FALSE EXIT THEN  - SIZE + FALLING C@ 0= ;
: ROW ( row -- )
  DUP SIZE = IF DROP 1 WAYS +! EXIT THEN
  SIZE 0 DO DUP I FREE? IF 1 OVER I MARKS  DUP 1+ 'ROW @ EXECUTE  0 OVER I MARKS THEN LOOP DROP ;
' ROW 'ROW !
: PLACED ( -- n ) 0 WAYS ! 0 ROW WAYS @ ;
: TURNS 0 DO PLACED DROP LOOP ;
: RESULT ." result " PLACED . ;
