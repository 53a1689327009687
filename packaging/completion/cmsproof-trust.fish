# Completion for fish of cmsproof-trust: made by tools/completion.py of the parsers of the tools and the help of the program.

# Whether the words before are those of the command WORD, or of none of cmsproof-trust's words where WORD is `-`; with a number before,
# whether the next one is the first behind them.
function __cmsproof_trust_at
    set -l place -
    set -l words (commandline -opc)
    set -e words[1]
    if set -q words[1]; and contains -- $words[1] 
        set place $words[1]
        set -e words[1]
    end
    if test "$argv[1]" = 1
        set -e argv[1]
        test (count $words) = 0; or return 1
    end
    test "$place" = "$argv[1]"
end

complete -c cmsproof-trust -n '__cmsproof_trust_at -' -l help -d 'Show this help message and exit'
complete -c cmsproof-trust -n '__cmsproof_trust_at -' -l version -d 'Show program’s version number and exit'
complete -c cmsproof-trust -n '__cmsproof_trust_at -' -l signer -r -F -d 'The certificate of somebody who signs files'
complete -c cmsproof-trust -n '__cmsproof_trust_at -' -l tsa -r -F -d 'The certificate of a time-stamping authority'
complete -c cmsproof-trust -n '__cmsproof_trust_at -' -l issuer -r -F -d 'An issuer whose signers are trusted'
complete -c cmsproof-trust -n '__cmsproof_trust_at -' -l tsa-issuer -r -F -d 'An issuer whose time-stamping authorities are trusted'
complete -c cmsproof-trust -n '__cmsproof_trust_at -' -l intermediate -r -F -d 'Certificates that may be part of a path, any number in a file'
complete -c cmsproof-trust -n '__cmsproof_trust_at -' -l crl -r -F -d 'Revocation lists'
complete -c cmsproof-trust -n '__cmsproof_trust_at -' -l crl-dir -r -F -d 'A folder of revocation lists'
complete -c cmsproof-trust -n '__cmsproof_trust_at -' -l ocsp -r -F -d 'Stored responses of OCSP, one in a file'
complete -c cmsproof-trust -n '__cmsproof_trust_at -' -l trusted-list -r -F -d 'A national trusted list'
complete -c cmsproof-trust -n '__cmsproof_trust_at -' -l scheme-operator -r -F -d 'The certificate under which trusted lists are signed'
complete -c cmsproof-trust -n '__cmsproof_trust_at -' -l from-files -r -F -d 'The signed files to look at'
complete -c cmsproof-trust -n '__cmsproof_trust_at -' -l files-from -r -F -d 'A list of their names, one on each line'
complete -c cmsproof-trust -n '__cmsproof_trust_at -' -l null -d 'Names in lists end in an octet 00'
complete -c cmsproof-trust -n '__cmsproof_trust_at -' -l sha1 -d 'Allow SHA-1 in certificates, lists, responses and stamps'
complete -c cmsproof-trust -n '__cmsproof_trust_at -' -l explain -r -F -d 'Show a trust list as a table'
complete -c cmsproof-trust -n '__cmsproof_trust_at -' -l diff -r -F -d 'Show where two trust lists differ'
complete -c cmsproof-trust -n '__cmsproof_trust_at -' -l merge -r -F -d 'Write one list of several'
complete -c cmsproof-trust -n '__cmsproof_trust_at -' -l all -d 'Take each certificate of a file that has several'
complete -c cmsproof-trust -n '__cmsproof_trust_at -' -l from -x -d 'The first moment of trust'
complete -c cmsproof-trust -n '__cmsproof_trust_at -' -l until -x -d 'The last moment of trust'
