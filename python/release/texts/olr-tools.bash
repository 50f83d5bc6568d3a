# Completion of the words of olr-tools, for bash, which olr-tools itself answers. `source` this file, or install it as
# /usr/share/bash-completion/completions/olr-tools.
_olr_tools() {
    local kind value
    COMPREPLY=()
    while IFS=, read -r kind value; do
        case $kind in
            plain) COMPREPLY+=("$value") ;;
            dir) compopt -o dirnames 2>/dev/null ;;
            file) compopt -o default 2>/dev/null ;;
        esac
    done < <(COMP_WORDS="${COMP_WORDS[*]}" COMP_CWORD=$COMP_CWORD _OLR_TOOLS_COMPLETE=bash_complete "$1" 2>/dev/null)
}

complete -o nosort -F _olr_tools olr-tools
