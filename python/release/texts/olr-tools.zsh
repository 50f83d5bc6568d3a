#compdef olr-tools
# Completion of the words of olr-tools, for zsh, which olr-tools itself answers. Install it as _olr-tools in a folder of $fpath,
# as /usr/share/zsh/vendor-completions/_olr-tools.
local kind value purpose
local -a found plain
while read -r kind && read -r value && read -r purpose; do
    case $kind in
        plain)
            if [[ $purpose == _ ]]; then
                plain+=("$value")
            else
                found+=("${value//:/\\:}:$purpose")
            fi
            ;;
        dir) _files -/ ;;
        file) _files ;;
    esac
done < <(COMP_WORDS="${words[*]}" COMP_CWORD=$((CURRENT - 1)) _OLR_TOOLS_COMPLETE=zsh_complete $words[1] 2>/dev/null)
(( ! ${#found} )) || _describe -V word found
(( ! ${#plain} )) || compadd -V word -a plain
