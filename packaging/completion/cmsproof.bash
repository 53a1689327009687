# Completion for bash of cmsproof and its tools: made by tools/completion.py of the parsers of the tools and the help of the program.

# _cmsproof_options PLACE: the options of a command, as `cmsproof check`.
_cmsproof_options() {
    case $1 in
    'cmsproof') echo '--help --version' ;;
    'cmsproof request') echo '--digest --of --signer --alg --policy --nonce --cert --help' ;;
    'cmsproof show') echo '--help' ;;
    'cmsproof cert') echo '--help' ;;
    'cmsproof fit') echo '--content --sha1 --files-from --null --help' ;;
    'cmsproof match') echo '--help' ;;
    'cmsproof check') echo '--trust --answers --content --sha1 --evidence --end --at --buffer --files-from --null --help' ;;
    'cmsproof questions') echo '--trust --buffer --files-from --null --help' ;;
    'cmsproof stamp') echo '--trust --answers --sha1 --help --files-from --null' ;;
    'cmsproof evidence') echo '--trust --answers --end --at --whole --help --files-from --null --alg --policy --nonce --cert --token --into --request --alone' ;;
    'cmsproof attach') echo '--signer --token --help' ;;
    'cmsproof compare') echo '--first --second --help' ;;
    'cmsproof migrate') echo '--help' ;;
    'cmsproof help') echo '' ;;
    'cmsproof-archive') echo '--help --version --trust --issuer --tsa-issuer --intermediate --crl --crl-dir --ocsp --trusted-list --scheme-operator --write-trust --content --pair --no-pairs --pairs-from --sha1 --partial --stamps --records --under --end --at --whole --by-records --jobs --json --explain --files-from --null --state --since --only --recheck --known --dask --progress --log' ;;
    'cmsproof-extract') echo '--help --version --to --partial --mend' ;;
    'cmsproof-trust') echo '--help --version --signer --tsa --issuer --tsa-issuer --intermediate --crl --crl-dir --ocsp --trusted-list --scheme-operator --from-files --files-from --null --sha1 --explain --diff --merge --all --from --until' ;;
    'cmsproof-verify') echo '--help --version' ;;
    'cmsproof-archive report') echo '--help --version --html --csv --json --known --records --under --only' ;;
    'cmsproof-archive evidence') echo '--help --version --trust --content --sha1 --record --end --at --whole --part --without-content --to --verify --list-of-the-bundle' ;;
    'cmsproof-archive due') echo '--help --version --trust --months --by --end --jobs --dask --json --files-from --null --progress' ;;
    'cmsproof-archive stamp') echo '--help --version --into --tsa --state --policy --timeout --program --progress --trust --end --alg --jobs --dask' ;;
    'cmsproof-archive renew') echo '--help --version --records --trust --months --by --end --tsa --state --policy --timeout --program --progress --jobs --dask' ;;
    esac
}

# _cmsproof_firsts PLACE: what the first other word of a command can be.
_cmsproof_firsts() {
    case $1 in
    'cmsproof') echo 'request show cert fit match check questions stamp evidence attach compare migrate help' ;;
    'cmsproof show') echo 'evidence request response signed tst' ;;
    'cmsproof stamp') echo 'check questions' ;;
    'cmsproof evidence') echo 'check questions request make renew rehash' ;;
    'cmsproof help') echo 'request show cert fit match check questions stamp evidence attach compare migrate help' ;;
    'cmsproof-archive') echo 'report evidence due stamp renew' ;;
    esac
}

# _cmsproof_values PLACE OPTION: what the value of an option can be, `files` for the name of a file; status 1 of one without a value.
_cmsproof_values() {
    case "$1 $2" in
    'cmsproof request --digest') echo '' ;;
    'cmsproof request --of') echo files ;;
    'cmsproof request --signer') echo '' ;;
    'cmsproof request --alg') echo 'sha1 sha224 sha256 sha384 sha512 sha512-224 sha512-256' ;;
    'cmsproof request --policy') echo '' ;;
    'cmsproof request --nonce') echo '' ;;
    'cmsproof fit --content') echo files ;;
    'cmsproof fit --files-from') echo files ;;
    'cmsproof check --trust') echo files ;;
    'cmsproof check --answers') echo files ;;
    'cmsproof check --content') echo files ;;
    'cmsproof check --evidence') echo files ;;
    'cmsproof check --end') echo '' ;;
    'cmsproof check --at') echo '' ;;
    'cmsproof check --buffer') echo '' ;;
    'cmsproof check --files-from') echo files ;;
    'cmsproof questions --trust') echo files ;;
    'cmsproof questions --buffer') echo '' ;;
    'cmsproof questions --files-from') echo files ;;
    'cmsproof stamp --trust') echo files ;;
    'cmsproof stamp --answers') echo files ;;
    'cmsproof stamp --files-from') echo files ;;
    'cmsproof evidence --trust') echo files ;;
    'cmsproof evidence --answers') echo files ;;
    'cmsproof evidence --end') echo '' ;;
    'cmsproof evidence --at') echo '' ;;
    'cmsproof evidence --files-from') echo files ;;
    'cmsproof evidence --alg') echo 'sha1 sha224 sha256 sha384 sha512 sha512-224 sha512-256' ;;
    'cmsproof evidence --policy') echo '' ;;
    'cmsproof evidence --nonce') echo '' ;;
    'cmsproof evidence --token') echo files ;;
    'cmsproof evidence --into') echo files ;;
    'cmsproof evidence --request') echo files ;;
    'cmsproof attach --signer') echo '' ;;
    'cmsproof attach --token') echo files ;;
    'cmsproof compare --first') echo '' ;;
    'cmsproof compare --second') echo '' ;;
    'cmsproof-archive --trust') echo files ;;
    'cmsproof-archive --issuer') echo files ;;
    'cmsproof-archive --tsa-issuer') echo files ;;
    'cmsproof-archive --intermediate') echo files ;;
    'cmsproof-archive --crl') echo files ;;
    'cmsproof-archive --crl-dir') echo files ;;
    'cmsproof-archive --ocsp') echo files ;;
    'cmsproof-archive --trusted-list') echo files ;;
    'cmsproof-archive --scheme-operator') echo files ;;
    'cmsproof-archive --write-trust') echo files ;;
    'cmsproof-archive --content') echo files ;;
    'cmsproof-archive --pair') echo '' ;;
    'cmsproof-archive --pairs-from') echo files ;;
    'cmsproof-archive --records') echo files ;;
    'cmsproof-archive --under') echo files ;;
    'cmsproof-archive --end') echo '' ;;
    'cmsproof-archive --at') echo '' ;;
    'cmsproof-archive --jobs') echo '' ;;
    'cmsproof-archive --files-from') echo files ;;
    'cmsproof-archive --state') echo files ;;
    'cmsproof-archive --since') echo '' ;;
    'cmsproof-archive --only') echo 'accepted stamped evidenced unsigned refused malformed failed' ;;
    'cmsproof-archive --known') echo files ;;
    'cmsproof-archive --dask') echo '' ;;
    'cmsproof-archive --log') echo files ;;
    'cmsproof-extract --to') echo files ;;
    'cmsproof-trust --signer') echo files ;;
    'cmsproof-trust --tsa') echo files ;;
    'cmsproof-trust --issuer') echo files ;;
    'cmsproof-trust --tsa-issuer') echo files ;;
    'cmsproof-trust --intermediate') echo files ;;
    'cmsproof-trust --crl') echo files ;;
    'cmsproof-trust --crl-dir') echo files ;;
    'cmsproof-trust --ocsp') echo files ;;
    'cmsproof-trust --trusted-list') echo files ;;
    'cmsproof-trust --scheme-operator') echo files ;;
    'cmsproof-trust --from-files') echo files ;;
    'cmsproof-trust --files-from') echo files ;;
    'cmsproof-trust --explain') echo files ;;
    'cmsproof-trust --diff') echo files ;;
    'cmsproof-trust --merge') echo files ;;
    'cmsproof-trust --from') echo '' ;;
    'cmsproof-trust --until') echo '' ;;
    'cmsproof-archive report --html') echo files ;;
    'cmsproof-archive report --csv') echo files ;;
    'cmsproof-archive report --json') echo files ;;
    'cmsproof-archive report --known') echo files ;;
    'cmsproof-archive report --records') echo files ;;
    'cmsproof-archive report --under') echo files ;;
    'cmsproof-archive report --only') echo 'accepted stamped evidenced unsigned refused malformed failed' ;;
    'cmsproof-archive evidence --trust') echo files ;;
    'cmsproof-archive evidence --content') echo files ;;
    'cmsproof-archive evidence --record') echo files ;;
    'cmsproof-archive evidence --end') echo '' ;;
    'cmsproof-archive evidence --at') echo '' ;;
    'cmsproof-archive evidence --part') echo '' ;;
    'cmsproof-archive evidence --to') echo files ;;
    'cmsproof-archive evidence --verify') echo files ;;
    'cmsproof-archive due --trust') echo files ;;
    'cmsproof-archive due --months') echo '' ;;
    'cmsproof-archive due --by') echo '' ;;
    'cmsproof-archive due --end') echo '' ;;
    'cmsproof-archive due --jobs') echo '' ;;
    'cmsproof-archive due --dask') echo '' ;;
    'cmsproof-archive due --files-from') echo files ;;
    'cmsproof-archive stamp --into') echo files ;;
    'cmsproof-archive stamp --tsa') echo '' ;;
    'cmsproof-archive stamp --state') echo files ;;
    'cmsproof-archive stamp --policy') echo '' ;;
    'cmsproof-archive stamp --timeout') echo '' ;;
    'cmsproof-archive stamp --program') echo files ;;
    'cmsproof-archive stamp --trust') echo files ;;
    'cmsproof-archive stamp --end') echo '' ;;
    'cmsproof-archive stamp --alg') echo 'sha256 sha384 sha512' ;;
    'cmsproof-archive stamp --jobs') echo '' ;;
    'cmsproof-archive stamp --dask') echo '' ;;
    'cmsproof-archive renew --records') echo files ;;
    'cmsproof-archive renew --trust') echo files ;;
    'cmsproof-archive renew --months') echo '' ;;
    'cmsproof-archive renew --by') echo '' ;;
    'cmsproof-archive renew --end') echo '' ;;
    'cmsproof-archive renew --tsa') echo '' ;;
    'cmsproof-archive renew --state') echo files ;;
    'cmsproof-archive renew --policy') echo '' ;;
    'cmsproof-archive renew --timeout') echo '' ;;
    'cmsproof-archive renew --program') echo files ;;
    'cmsproof-archive renew --jobs') echo '' ;;
    'cmsproof-archive renew --dask') echo '' ;;
    *) return 1 ;;
    esac
}

_cmsproof() {
    local tool=${1##*/} word=${COMP_WORDS[COMP_CWORD]} before=${COMP_WORDS[COMP_CWORD - 1]} place=${1##*/} first=1 words
    COMPREPLY=()
    # bash has the sign of --option=value as a word
    if [ "$word" = = ]; then
        word=''
    elif [ "$before" = = ] && [ "$COMP_CWORD" -gt 2 ]; then
        before=${COMP_WORDS[COMP_CWORD - 2]}
    fi
    [ "$COMP_CWORD" -lt 2 ] || case "$tool ${COMP_WORDS[1]}" in
    'cmsproof request') place=$tool\ ${COMP_WORDS[1]} ;;
    'cmsproof show') place=$tool\ ${COMP_WORDS[1]} ;;
    'cmsproof cert') place=$tool\ ${COMP_WORDS[1]} ;;
    'cmsproof fit') place=$tool\ ${COMP_WORDS[1]} ;;
    'cmsproof match') place=$tool\ ${COMP_WORDS[1]} ;;
    'cmsproof check') place=$tool\ ${COMP_WORDS[1]} ;;
    'cmsproof questions') place=$tool\ ${COMP_WORDS[1]} ;;
    'cmsproof stamp') place=$tool\ ${COMP_WORDS[1]} ;;
    'cmsproof evidence') place=$tool\ ${COMP_WORDS[1]} ;;
    'cmsproof attach') place=$tool\ ${COMP_WORDS[1]} ;;
    'cmsproof compare') place=$tool\ ${COMP_WORDS[1]} ;;
    'cmsproof migrate') place=$tool\ ${COMP_WORDS[1]} ;;
    'cmsproof help') place=$tool\ ${COMP_WORDS[1]} ;;
    'cmsproof-archive report') place=$tool\ ${COMP_WORDS[1]} ;;
    'cmsproof-archive evidence') place=$tool\ ${COMP_WORDS[1]} ;;
    'cmsproof-archive due') place=$tool\ ${COMP_WORDS[1]} ;;
    'cmsproof-archive stamp') place=$tool\ ${COMP_WORDS[1]} ;;
    'cmsproof-archive renew') place=$tool\ ${COMP_WORDS[1]} ;;
    esac
    [ "$place" = "$tool" ] || first=2
    if words=$(_cmsproof_values "$place" "$before"); then
        [ "$words" = files ] && return
        [ -n "$words" ] || compopt +o default
    elif [ "${word:0:1}" = - ]; then
        words=$(_cmsproof_options "$place")
    else
        words=$(_cmsproof_firsts "$place")
        # (behind it, and where files can stand too before such a word is begun, these are shown)
        [ "$COMP_CWORD" = "$first" ] && { [ "$tool" = cmsproof ] || [ -n "$word" ]; } || return
    fi
    mapfile -t COMPREPLY < <(compgen -W "$words" -- "$word")
}

complete -o default -F _cmsproof cmsproof cmsproof-archive cmsproof-extract cmsproof-trust cmsproof-verify
