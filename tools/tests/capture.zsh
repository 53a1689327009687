# capture.zsh FOLDER LINE: what the completions in FOLDER offer at the end of LINE, a word on each line.
zmodload zsh/zpty || exit 1
local folder=$1 line
zpty shell zsh -f -i
() {
    zpty -w shell "source $1 $folder"
    repeat 50; do
        zpty -r shell line
        [[ $line == *ready-now* ]] && return
    done
    exit 2
} =(<<'END'
PROMPT= PS2=
fpath=($1 $fpath)
autoload -Uz compinit
compinit -u -D
bindkey '^I' complete-word
mark() { print -r -- $'\1' }
compprefuncs=(mark)
comppostfuncs=(mark exit)
zstyle ':completion:*' insert-tab false
# what is offered is printed, and not shown
compadd() {
    if [[ ${@[1,(i)(-|--)]} == *-(O|A|D)\ * ]]; then
        builtin compadd "$@"
        return
    fi
    typeset -a offered
    builtin compadd -A offered "$@"
    (( $#offered )) && print -rl -- $offered
}
print ready-''now
END
)
zpty -n -w shell "$2"$'\t'
integer marks=0
while zpty -r shell line; do print -r -- $line; done | while IFS= read -r line; do
    if [[ $line == *$'\1'* ]]; then
        (( marks++ )) && break
    elif (( marks )); then
        print -r -- ${line%%$'\r'*}
    fi
done
