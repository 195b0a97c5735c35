# Turns Forth in small letters into capitals, and leaves alone what isn't searched in the dictionary: texts, comments, characters.
# usage: LC_ALL=C awk -f share/capitals.awk small.fs > large.fs
#
# A word that ends in a quote, as ." or s", takes a text up to the next quote; .( and ( one up to a parenthesis; \ takes the line. The word behind CHAR,
# [CHAR] or ASCII is a character. The word behind one of NAMERS is a name, whatever it looks like. A text ends with its line at the latest.
BEGIN {
    split(": CREATE VARIABLE CONSTANT VALUE DEFER IS TO ' ['] POSTPONE COMPILE [COMPILE] FORGET VOCABULARY", words, " ")
    for (i in words) NAMERS[words[i]]
    split("CHAR [CHAR] ASCII", words, " ")
    for (i in words) CHARACTERS[words[i]]
}

# how many bytes of the rest of a line a word takes, its delimiter included
function taken(word, rest) {
    if (word == "\\") return length(rest)
    if (word == "S\\\"") return match(rest, /^[ \t]([^"\\]|\\.)*"/) ? RLENGTH : length(rest)
    if (word == "(" || word == ".(") return index(rest, ")") ? index(rest, ")") : length(rest)
    if (word ~ /"$/) return index(rest, "\"") ? index(rest, "\"") : length(rest)
    return 0
}

{
    rest = $0
    line = ""
    before = ""
    while (match(rest, /[^ \t\r]+/)) {
        word = substr(rest, RSTART, RLENGTH)
        line = line substr(rest, 1, RSTART - 1)
        rest = substr(rest, RSTART + RLENGTH)
        if (before in CHARACTERS) {
            line = line word
            before = ""
            continue
        }
        word = toupper(word)
        line = line word
        count = before in NAMERS ? 0 : taken(word, rest)
        before = before in NAMERS ? "" : word
        line = line substr(rest, 1, count)
        rest = substr(rest, count + 1)
    }
    print line rest
}
