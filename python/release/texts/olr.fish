# Completion of the words of olr, for fish. Install it as /usr/share/fish/vendor_completions.d/olr.fish or
# ~/.config/fish/completions/olr.fish.

# What may follow each command: the command, a word, what the word takes, and what it is for.
function __olr_table
    echo '@TABLE@'
end

function __olr_complete
    set -l before (commandline -opc)
    set -l rows (__olr_table)
    set -l commands (string split -f 1 '|' -- $rows)
    set -l command ''
    for word in $before[2..-1]
        set -l next (string trim -- "$command $word")
        contains -- $next $commands; or break
        set command $next
    end
    set -l found
    for row in $rows
        set -l parts (string split -m 3 '|' -- $row)
        test "$parts[1]" = "$command"; or continue
        set -a found $parts[2]\t$parts[4]
        test "$parts[2]" = "$before[-1]"; or continue
        switch $parts[3]
            case file
                __fish_complete_path (commandline -ct)
                return
            case folder
                __fish_complete_directories (commandline -ct) ''
                return
            case text
                return
            case '=*'
                string split ' ' -- (string sub -s 2 -- $parts[3])
                return
        end
    end
    printf '%s\n' $found
end

complete --no-files --command olr --arguments '(__olr_complete)'
