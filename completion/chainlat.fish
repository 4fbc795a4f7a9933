# Completion of chainlat for fish. The commands and their arguments are those that `chainlat help` lists, and the names are
# those of the model, as `chainlat migrate` writes it.

# The commands, a line each: the command with its arguments, a tab, and what it writes. The argument is the program.
function __chainlat_usages
    for line in (timeout 2 $argv[1] help 2>/dev/null | sed -n '3,/^$/s/   */\t/p')
        set -l parts (string split \t -- $line)
        for usage in (string split ', ' -- $parts[1])
            printf '%s\t%s\n' $usage $parts[2]
        end
    end
end

# The commands alone, each with what it writes.
function __chainlat_commands
    __chainlat_usages $argv[1] | sed 's/^\([^ \t]*\)[^\t]*/\1/'
end

# The files, first those with an ending of the argument, a pattern.
function __chainlat_files
    set -l files (complete -C "'' "(commandline -ct))
    string match -r ".*\.(?:$argv[1])\$" -- $files
    string match -rv "\.(?:$argv[1])\$" -- $files
end

function __chainlat_complete
    set -l words (commandline -opc)
    set -l program (string replace -r '^~/' $HOME/ -- $words[1])
    if test (count $words) -eq 1
        __chainlat_commands $program
        return
    end
    set -l usage (__chainlat_usages $program | string match -r "^"(string escape --style=regex -- $words[2])"[ \t].*")
    set -l arguments (string split ' ' -- (string split \t -- $usage)[1])
    switch "$arguments[$(count $words)]"
        case MODEL
            __chainlat_files toml
        case EDITS
            __chainlat_files edits
        case TRACE
            __chainlat_files trace
        case '[FILE]'
            __chainlat_files 'edits|trace'
        case '[COMMAND]'
            __chainlat_commands $program
        case WHAT
            printf '%s\n' response reaction age reduced delay requirement
        case NAME
            set -l section chain
            switch $words[4]
                case response
                    set section task
                case requirement
                    set section requirement
            end
            test -f $words[3]; and timeout 2 $program migrate $words[3] 2>/dev/null |
                sed -n "/^\[\[/h; /^name = /{G; s/^name = \"\(.*\)\"\n\[\[$section\]\]\$/\1/p;}"
    end
end

complete -c chainlat -k -f -a '(__chainlat_complete)'
