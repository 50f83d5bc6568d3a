#compdef olr
# Completion of the words of olr, for zsh. Install it as _olr in a folder of $fpath, as
# /usr/share/zsh/vendor-completions/_olr.

# Prints what may follow each command: the command, a word, what the word takes, and what it is for.
_olr_table() {
    cat <<'TABLE'
@TABLE@
TABLE
}

local row command value
local -i at=2
local -a rows parts found
rows=("${(@f)$(_olr_table)}")
while (( at < CURRENT && ${rows[(I)${command:+$command }${(b)words[at]}\|*]} )); do
    command+=${command:+ }${words[at]}
    (( at += 1 ))
done
for row in "${(@M)rows:#$command\|*}"; do
    parts=("${(@s:|:)row}")
    found+=("${parts[2]}:${parts[4]}")
    [[ ${parts[2]} != ${words[CURRENT - 1]} ]] || value=${parts[3]}
done
case $value in
    file) _files ;;
    folder) _files -/ ;;
    text) _message 'a value' ;;
    \=*) compadd -- ${(s: :)value#=} ;;
    *) _describe -V word found ;;
esac
