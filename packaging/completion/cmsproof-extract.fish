# Completion for fish of cmsproof-extract: made by tools/completion.py of the parsers of the tools and the help of the program.

# Whether the words before are those of the command WORD, or of none of cmsproof-extract's words where WORD is `-`; with a number before,
# whether the next one is the first behind them.
function __cmsproof_extract_at
    set -l place -
    set -l words (commandline -opc)
    set -e words[1]
    if set -q words[1]; and contains -- $words[1] 
        set place $words[1]
        set -e words[1]
    end
    if test "$argv[1]" = 1
        set -e argv[1]
        test (count $words) = 0; or return 1
    end
    test "$place" = "$argv[1]"
end

complete -c cmsproof-extract -n '__cmsproof_extract_at -' -l help -d 'Show this help message and exit'
complete -c cmsproof-extract -n '__cmsproof_extract_at -' -l version -d 'Show program’s version number and exit'
complete -c cmsproof-extract -n '__cmsproof_extract_at -' -l to -r -F -d 'The folder to write into, which is made if it is not there'
complete -c cmsproof-extract -n '__cmsproof_extract_at -' -l partial -d 'Also write signatures that do not cover the whole file'
complete -c cmsproof-extract -n '__cmsproof_extract_at -' -l mend -d 'Leave out unsigned attributes that are there and empty'
