# Edits a block of an image at this terminal, key by key: sh examples/visual/edit.sh IMAGE BLOCK
# The image has the editor's three screens in blocks 1 to 3. ^X ends it, and the terminal is as before.
was=$(stty -g) && trap 'stty "$was"' EXIT && trap 'exit 130' INT HUP TERM && stty -icanon -echo -ixon || exit
end=$(printf '\030')
keys() {
    echo "1 LOAD 2 LOAD 3 LOAD $1 EDIT"
    while key=$(dd bs=64 count=1 2> /dev/null; echo .) && printf %s "${key%.}"; do
        case $key in . | *"$end"*) break ;; esac
    done
}
keys "$2" | forth83 run "$1" --steps 1000000000
