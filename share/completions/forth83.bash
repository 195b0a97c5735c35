# Completions of forth83 for bash: source this file. What the commands and their options are, the program's help says.
_forth83() {
    local word=${COMP_WORDS[COMP_CWORD]} program=${COMP_WORDS[0]/#\~/$HOME} command=${COMP_WORDS[1]} offered
    local commands='/^Commands:/,/^$/s/^  \([a-z]*\) .*/\1/p'
    local options='/^Options:/,/^$/s/^ *\(-[a-zA-Z], \)\{0,1\}\(--[a-z-]*\).*/\2/p'
    if [ "$COMP_CWORD" -eq 1 ]; then
        offered=$("$program" --help 2>/dev/null | sed -n -e "$commands" -e "$options")
    elif [ "$command" = help ]; then
        [ "$COMP_CWORD" -gt 2 ] || offered=$("$program" --help 2>/dev/null | sed -n -e "$commands")
    elif [ "${word:0:1}" = - ]; then
        offered=$("$program" "$command" --help 2>/dev/null | sed -n -e "$options")
    else
        mapfile -t COMPREPLY < <(compgen -f -- "$word")
        return
    fi
    # (a folder of the name of a command isn't meant)
    compopt +o filenames 2> /dev/null
    COMPREPLY=($(compgen -W "$offered" -- "$word"))
}
complete -o filenames -F _forth83 forth83
