# Completion of bpf's words for bash: of its commands and options, as `bpf --help` and `bpf COMMAND --help` tell them, and else of files.
_bpf() {
    local word=${COMP_WORDS[COMP_CWORD]} words=''
    if ((COMP_CWORD == 1)); then
        words=$("${COMP_WORDS[0]}" --help 2>&1 | awk '/^Commands:/ { inside = 1; next } /^[^ ]/ { inside = 0 } inside && /^  [a-z]/ { print $1 }')
        [[ "$word" != -* ]] || words='--help --version'
    elif [[ "$word" == -* ]]; then
        words=$("${COMP_WORDS[0]}" "${COMP_WORDS[1]}" --help 2>&1 | awk '/^Options:/ { inside = 1; next } /^[^ ]/ { inside = 0 } inside { for (i = 1; i <= NF && $i ~ /^-/; i++) { sub(/,$/, "", $i); if ($i ~ /^--/) print $i } }')
    fi
    COMPREPLY=()
    [ -z "$words" ] || mapfile -t COMPREPLY < <(compgen -W "$words" -- "$word")
}
complete -o default -F _bpf bpf
