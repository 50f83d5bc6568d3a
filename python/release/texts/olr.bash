# Completion of the words of olr, for bash. `source` this file, or install it as
# /usr/share/bash-completion/completions/olr.

# Prints what may follow each command: the command, a word, what the word takes, and what it is for.
_olr_table() {
    cat <<'TABLE'
@TABLE@
TABLE
}

_olr() {
    local current=${COMP_WORDS[COMP_CWORD]} before=${COMP_WORDS[COMP_CWORD - 1]}
    local table of word takes at=1 command='' value='' words=''
    table=$'\n'$(_olr_table)
    COMPREPLY=()
    while [ "$at" -lt "$COMP_CWORD" ] && [[ $table == *$'\n'"${command:+$command }${COMP_WORDS[at]}|"* ]]; do
        command+=${command:+ }${COMP_WORDS[at++]}
    done
    while IFS='|' read -r of word takes _; do
        [ "$of" = "$command" ] || continue
        words+=" $word"
        [ "$word" != "$before" ] || value=$takes
    done <<<"$table"
    case $value in
        file | folder)
            compopt -o filenames 2>/dev/null
            [ "$value" = folder ] && words=-d || words=-f
            mapfile -t COMPREPLY < <(compgen "$words" -- "$current")
            return
            ;;
        text) return ;;
        =*) words=${value#=} ;;
    esac
    mapfile -t COMPREPLY < <(compgen -W "$words" -- "$current")
}

complete -F _olr olr
