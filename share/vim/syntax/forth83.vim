" Screens of Forth-83, as forth83 has it: names are upper case, words are divided by blanks.
if exists('b:current_syntax') | finish | endif
syntax case match
syntax iskeyword 33-126
syntax keyword forth83Word ! * */ */MOD + +! - / /MOD 0< 0= 0>
syntax keyword forth83Word 1+ 1- 2+ 2- 2/ < = > >R ?DUP @ ABS
syntax keyword forth83Word AND C! C@ CMOVE CMOVE> COUNT D+ D< DEPTH DNEGATE DROP DUP
syntax keyword forth83Word EXECUTE FILL I J MAX MIN MOD NEGATE NOT OR OVER PICK
syntax keyword forth83Word R> R@ ROLL ROT SWAP U< UM* UM/MOD XOR BLOCK BUFFER CR
syntax keyword forth83Word EMIT EXPECT FLUSH KEY SAVE-BUFFERS SPACE SPACES TYPE UPDATE # #> #S
syntax keyword forth83Word #TIB -TRAILING . <# >BODY >IN ABORT BASE BLK CONVERT DECIMAL FIND
syntax keyword forth83Word FORTH FORTH-83 HERE HOLD LOAD PAD QUIT SIGN SPAN TIB U. WORD
syntax keyword forth83Word , ALLOT STATE
syntax keyword forth83Control IF ELSE THEN BEGIN UNTIL WHILE REPEAT DO LOOP +LOOP LEAVE EXIT
syntax keyword forth83Define : ; CREATE VARIABLE CONSTANT VOCABULARY DOES> IMMEDIATE COMPILE LITERAL
syntax keyword forth83Define ' FORGET DEFINITIONS
syntax match forth83Define +\(^\|\s\)\@1<=\(\[\|\]\|\[COMPILE\]\|\['\]\)\ze\(\s\|$\)+
syntax match forth83Number '\(^\|\s\)\@1<=-\?\d\+\.\?\ze\(\s\|$\)'
syntax match forth83Name '\(\(^\|\s\):\s\+\)\@<=\S\+'
syntax region forth83Comment start='\(^\|\s\)\@1<=(\ze\(\s\|$\)' end=')' keepend contains=forth83Wrong
syntax region forth83Text start='\(^\|\s\)\@1<=\(\."\|ABORT"\)\ze\s' end='"' keepend contains=forth83Wrong
syntax region forth83Text start='\(^\|\s\)\@1<=\.(\ze\s' end=')' keepend contains=forth83Wrong
" what put refuses, and what runs into the next line
syntax match forth83Wrong '\%>64c.\+'
syntax match forth83Wrong '\s\S*\%65c\S.*'hs=s+1
syntax match forth83Wrong '\%17l.*'
syntax match forth83Wrong '\s\S\+\%65c\n\S\+'hs=s+1 contains=NONE
syntax match forth83Wrong '[^ -~\t]'
highlight default link forth83Word Statement
highlight default link forth83Control Conditional
highlight default link forth83Define Define
highlight default link forth83Name Function
highlight default link forth83Number Number
highlight default link forth83Comment Comment
highlight default link forth83Text String
highlight default link forth83Wrong Error
let b:current_syntax = 'forth83'
