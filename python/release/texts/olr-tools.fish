# Completion of the words of olr-tools, for fish, which olr-tools itself answers. Install it as
# /usr/share/fish/vendor_completions.d/olr-tools.fish or ~/.config/fish/completions/olr-tools.fish.
function __olr_tools_complete
    set -l answer (env COMP_WORDS=(commandline -cp | string collect) COMP_CWORD=(commandline -ct | string collect --allow-empty) \
        _OLR_TOOLS_COMPLETE=fish_complete olr-tools 2>/dev/null)
    for line in $answer
        set -l parts (string split -m 1 , -- $line)
        switch $parts[1]
            case plain
                echo $parts[2]
            case dir
                __fish_complete_directories (commandline -ct) ''
            case file
                __fish_complete_path (commandline -ct)
        end
    end
end

complete --no-files --command olr-tools --arguments '(__olr_tools_complete)'
