# What the scripts that measure the whole program share; it is read by them in their folder of work, where `here` is this folder, `program` the program and
# `rounds` how often each is timed.
steps=1000000000
others=
for other in gforth gforth-fast pforth; do
    if command -v "$other" > /dev/null; then others="$others $other"; fi
done
gcc -std=c11 -O2 -o whole "$here/whole.c"
"$program" new image --blocks 200
: > empty

# SYSTEM INPUT: nanoseconds of the processor. The others are given their text as a file: from standard input they take lines far slower. It is
# INPUT.fth where that is there, with INPUT.others before it; Lua's is INPUT.lua.
once() {
    case $1 in
    forth83) ./whole run 1 "$2" "$program" run image --steps "$steps" ;;
    lua) ./whole run 1 empty lua "$2.lua" ;;
    *) as_file "$2" && ./whole run 1 empty "$1" "$2.fs" 2> told ;;
    esac | cut -d' ' -f3
}
as_file() {
    text=$1
    if [ -f "$1.fth" ]; then text=$1.fth; fi
    { if [ -f "$1.others" ]; then cat "$1.others"; fi; cat "$text"; echo bye; } > "$1.fs"
}
row() {
    printf '%-44s %-12s %12s %s\n' "$1" "$2" "$3" "$4"
}
# WHAT INPUT BASE UNITS UNIT: the processor's time over that of the input BASE, by units. The systems take turns; the least of the rounds counts.
compared() {
    systems="forth83 $others"
    if [ -f "$2.lua" ] && command -v lua > /dev/null; then systems="$systems lua"; fi
    for _ in $(seq "$rounds"); do
        for system in $systems; do
            echo "$system $(once "$system" "$2") $(once "$system" "$3")"
        done
    done | awk -v units="$4" '
        NF != 3 { print "no time was had of " $1 > "/dev/stderr"; lacks = 1; exit }
        !($1 in long) || $2 < long[$1] { long[$1] = $2 }
        !($1 in short) || $3 < short[$1] { short[$1] = $3 }
        END {
            if (lacks) exit 1
            for (s in long) each[s] = (long[s] - short[s]) / units
            for (s in long) {
                over = each["gforth-fast"] > 0 ? sprintf(", %.2f of gforth-fast", each[s] / each["gforth-fast"]) : ""
                printf "%s %.2f %.3f %s\n", s, each[s], long[s] / 1e9, over
            }
        }' > took
    for system in $systems; do
        row "$1" "$system" "$(awk -v s="$system" '$1 == s { print $2 }' took) ns" \
            "a $5; in all $(awk -v s="$system" '$1 == s { print $3 }' took) s$(sed -n "s/^$system [^,]*,/,/p" took)"
    done
}
