# Completion for fish of cmsproof: made by tools/completion.py of the parsers of the tools and the help of the program.

# Whether the words before are those of the command WORD, or of none of cmsproof's words where WORD is `-`; with a number before,
# whether the next one is the first behind them.
function __cmsproof_at
    set -l place -
    set -l words (commandline -opc)
    set -e words[1]
    if set -q words[1]; and contains -- $words[1] request show cert fit match check questions stamp evidence attach compare migrate help
        set place $words[1]
        set -e words[1]
    end
    if test "$argv[1]" = 1
        set -e argv[1]
        test (count $words) = 0; or return 1
    end
    test "$place" = "$argv[1]"
end

complete -c cmsproof -n '__cmsproof_at -' -f
complete -c cmsproof -n '__cmsproof_at 1 -' -a request -d 'Makes a request for a time-stamp of a digest, or of a signature, and writes it into OUT'
complete -c cmsproof -n '__cmsproof_at 1 -' -a show -d 'Shows what is in FILE, field by field'
complete -c cmsproof -n '__cmsproof_at 1 -' -a cert -d 'Shows what a checker looks at in the certificate that FILE holds in DER'
complete -c cmsproof -n '__cmsproof_at 1 -' -a fit -d 'Says whether the content and the signed attributes of each signer of the CMS SignedData in FILE belong together'
complete -c cmsproof -n '__cmsproof_at 1 -' -a match -d 'Says whether the response in RESPONSE answers the time-stamp request in REQUEST'
complete -c cmsproof -n '__cmsproof_at 1 -' -a check -d 'Says by when each signature of the CMS SignedData in FILE existed, if the file is accepted'
complete -c cmsproof -n '__cmsproof_at 1 -' -a questions -d 'Prints what a verifier must be asked of the signatures in the CMS SignedData in FILE'
complete -c cmsproof -n '__cmsproof_at 1 -' -a stamp -d 'Says by when a file existed, by a time-stamp token or response that stands beside it'
complete -c cmsproof -n '__cmsproof_at 1 -' -a evidence -d 'Says by when files existed, by an evidence record that stands beside them'
complete -c cmsproof -n '__cmsproof_at 1 -' -a attach -d 'Attaches the time-stamp token in TOKEN to a signer of the CMS SignedData in FILE'
complete -c cmsproof -n '__cmsproof_at 1 -' -a compare -d 'Says whether a signature in the CMS SignedData in A and one in B sign the same'
complete -c cmsproof -n '__cmsproof_at 1 -' -a migrate -d 'Reads the trust list in LIST, of version 1 or 2, and writes it in version 2 into OUT'
complete -c cmsproof -n '__cmsproof_at 1 -' -a help -d 'Print this message or the help of the given subcommand(s)'
complete -c cmsproof -n '__cmsproof_at -' -l help -d 'Print help'
complete -c cmsproof -n '__cmsproof_at -' -l version -d 'Print version'
complete -c cmsproof -n '__cmsproof_at request' -l digest -x -d 'The digest, two hexadecimal digits of either case for each octet the algorithm gives'
complete -c cmsproof -n '__cmsproof_at request' -l of -r -F -d 'The CMS SignedData of which a signature is to be stamped'
complete -c cmsproof -n '__cmsproof_at request' -l signer -x -d 'The number of the signer in the FILE of --of'
complete -c cmsproof -n '__cmsproof_at request' -l alg -x -a 'sha1 sha224 sha256 sha384 sha512 sha512-224 sha512-256' -d 'The digest algorithm'
complete -c cmsproof -n '__cmsproof_at request' -l policy -x -d 'The policy under which the authority is asked to stamp, an object identifier'
complete -c cmsproof -n '__cmsproof_at request' -l nonce -x -d 'A number that the answer must repeat, the contents of an INTEGER in hexadecimal'
complete -c cmsproof -n '__cmsproof_at request' -l cert -d 'Asks for the authority’s certificate in the answer'
complete -c cmsproof -n '__cmsproof_at request' -l help -d 'Print help'
complete -c cmsproof -n '__cmsproof_at 1 show' -f
complete -c cmsproof -n '__cmsproof_at 1 show' -a evidence
complete -c cmsproof -n '__cmsproof_at 1 show' -a request
complete -c cmsproof -n '__cmsproof_at 1 show' -a response
complete -c cmsproof -n '__cmsproof_at 1 show' -a signed
complete -c cmsproof -n '__cmsproof_at 1 show' -a tst
complete -c cmsproof -n '__cmsproof_at show' -l help -d 'Print help'
complete -c cmsproof -n '__cmsproof_at cert' -l help -d 'Print help'
complete -c cmsproof -n '__cmsproof_at fit' -l content -r -F -d 'The file that was signed'
complete -c cmsproof -n '__cmsproof_at fit' -l sha1 -d 'Allows SHA-1 as a signer’s digest algorithm'
complete -c cmsproof -n '__cmsproof_at fit' -l files-from -r -F -d 'Reads the names of the files from LIST, a line for each, in place of FILE'
complete -c cmsproof -n '__cmsproof_at fit' -l null -d 'Each name in LIST ends in an octet 0'
complete -c cmsproof -n '__cmsproof_at fit' -l help -d 'Print help'
complete -c cmsproof -n '__cmsproof_at match' -l help -d 'Print help'
complete -c cmsproof -n '__cmsproof_at check' -l trust -r -F -d 'The trust list'
complete -c cmsproof -n '__cmsproof_at check' -l answers -r -F -d 'The answers list'
complete -c cmsproof -n '__cmsproof_at check' -l content -r -F -d 'The file that was signed'
complete -c cmsproof -n '__cmsproof_at check' -l sha1 -d 'Allows SHA-1 as a digest algorithm of signers and imprints'
complete -c cmsproof -n '__cmsproof_at check' -l evidence -r -F -d 'An evidence record that shows by when FILE existed'
complete -c cmsproof -n '__cmsproof_at check' -l end -x -d 'The last moment at which the digest algorithm ALG holds'
complete -c cmsproof -n '__cmsproof_at check' -l at -x -d 'The moment at which the last time-stamp of RECORD must still hold'
complete -c cmsproof -n '__cmsproof_at check' -l buffer -x -d 'How many octets of FILE may be kept while it is read, 1 to 1073741824'
complete -c cmsproof -n '__cmsproof_at check' -l files-from -r -F -d 'Reads the names of the files from LIST, a line for each, in place of FILE'
complete -c cmsproof -n '__cmsproof_at check' -l null -d 'Each name in LIST ends in an octet 0'
complete -c cmsproof -n '__cmsproof_at check' -l help -d 'Print help'
complete -c cmsproof -n '__cmsproof_at questions' -l trust -r -F -d 'The trust list'
complete -c cmsproof -n '__cmsproof_at questions' -l buffer -x -d 'How many octets of FILE may be kept while it is read, 1 to 1073741824'
complete -c cmsproof -n '__cmsproof_at questions' -l files-from -r -F -d 'Reads the names of the files from LIST, a line for each, in place of FILE'
complete -c cmsproof -n '__cmsproof_at questions' -l null -d 'Each name in LIST ends in an octet 0'
complete -c cmsproof -n '__cmsproof_at questions' -l help -d 'Print help'
complete -c cmsproof -n '__cmsproof_at 1 stamp' -f
complete -c cmsproof -n '__cmsproof_at 1 stamp' -a check -d 'Says by when the file DATA existed, if the time-stamp token in STAMP is accepted'
complete -c cmsproof -n '__cmsproof_at 1 stamp' -a questions -d 'Prints what a verifier must be asked of the time-stamp token in STAMP'
complete -c cmsproof -n '__cmsproof_at stamp' -l trust -r -F -d 'The trust list'
complete -c cmsproof -n '__cmsproof_at stamp' -l answers -r -F -d 'The answers list'
complete -c cmsproof -n '__cmsproof_at stamp' -l sha1 -d 'Allows SHA-1 as a digest algorithm of the token’s signer and of its imprint'
complete -c cmsproof -n '__cmsproof_at stamp' -l help -d 'Print help'
complete -c cmsproof -n '__cmsproof_at stamp' -l files-from -r -F -d 'Reads the names of the stamps from LIST, a line for each, in place of STAMP'
complete -c cmsproof -n '__cmsproof_at stamp' -l null -d 'Each name in LIST ends in an octet 0'
complete -c cmsproof -n '__cmsproof_at 1 evidence' -f
complete -c cmsproof -n '__cmsproof_at 1 evidence' -a check -d 'Says by when the files DATA existed, if the evidence record in RECORD is accepted for each of them'
complete -c cmsproof -n '__cmsproof_at 1 evidence' -a questions -d 'Prints what a verifier must be asked of the time-stamps in the evidence record in RECORD'
complete -c cmsproof -n '__cmsproof_at 1 evidence' -a request -d 'Makes a request for a time-stamp of the root of the hash tree over the digests in SUMS'
complete -c cmsproof -n '__cmsproof_at 1 evidence' -a make -d 'Makes an evidence record of each file in SUMS, by the time-stamp token in TOKEN'
complete -c cmsproof -n '__cmsproof_at 1 evidence' -a renew -d 'Makes a request for one time-stamp by which the evidence records in the RECORDs are renewed, or renews each of them by its token'
complete -c cmsproof -n '__cmsproof_at 1 evidence' -a rehash -d 'Makes a request for one time-stamp by which the evidence records of the files in SUMS get a new chain, under another digest algorithm, or gives it to each of them by its token'
complete -c cmsproof -n '__cmsproof_at evidence' -l trust -r -F -d 'The trust list'
complete -c cmsproof -n '__cmsproof_at evidence' -l answers -r -F -d 'The answers list'
complete -c cmsproof -n '__cmsproof_at evidence' -l end -x -d 'The last moment at which the digest algorithm ALG holds'
complete -c cmsproof -n '__cmsproof_at evidence' -l at -x -d 'The moment at which the last time-stamp must still hold'
complete -c cmsproof -n '__cmsproof_at evidence' -l whole -d 'Refuses a record whose first list has other hash values than those of DATA'
complete -c cmsproof -n '__cmsproof_at evidence' -l help -d 'Print help'
complete -c cmsproof -n '__cmsproof_at evidence' -l files-from -r -F -d 'Reads the names of the records from LIST, a line for each, in place of RECORD'
complete -c cmsproof -n '__cmsproof_at evidence' -l null -d 'Each name in LIST ends in an octet 0'
complete -c cmsproof -n '__cmsproof_at evidence' -l alg -x -a 'sha1 sha224 sha256 sha384 sha512 sha512-224 sha512-256' -d 'The digest algorithm of SUMS and of the new chains'
complete -c cmsproof -n '__cmsproof_at evidence' -l policy -x -d 'The policy under which the authority is asked to stamp, an object identifier'
complete -c cmsproof -n '__cmsproof_at evidence' -l nonce -x -d 'A number that the answer must repeat, the contents of an INTEGER in hexadecimal'
complete -c cmsproof -n '__cmsproof_at evidence' -l cert -d 'Asks for the authority’s certificate in the answer'
complete -c cmsproof -n '__cmsproof_at evidence' -l token -r -F -d 'The token that stamps the root of the tree over SUMS and the records'
complete -c cmsproof -n '__cmsproof_at evidence' -l into -r -F -d 'The folder with the records'
complete -c cmsproof -n '__cmsproof_at evidence' -l request -r -F -d 'The file to write the request into'
complete -c cmsproof -n '__cmsproof_at evidence' -l alone -d 'Takes further hash values of a record’s first list for those of neighbours in its tree'
complete -c cmsproof -n '__cmsproof_at attach' -l signer -x -d 'The number of the signer'
complete -c cmsproof -n '__cmsproof_at attach' -l token -r -F -d 'The token to attach'
complete -c cmsproof -n '__cmsproof_at attach' -l help -d 'Print help'
complete -c cmsproof -n '__cmsproof_at compare' -l first -x -d 'The number of the signer in A'
complete -c cmsproof -n '__cmsproof_at compare' -l second -x -d 'The number of the signer in B'
complete -c cmsproof -n '__cmsproof_at compare' -l help -d 'Print help'
complete -c cmsproof -n '__cmsproof_at migrate' -l help -d 'Print help'
complete -c cmsproof -n '__cmsproof_at help' -f
complete -c cmsproof -n '__cmsproof_at 1 help' -a request -d 'Makes a request for a time-stamp of a digest, or of a signature, and writes it into OUT'
complete -c cmsproof -n '__cmsproof_at 1 help' -a show -d 'Shows what is in FILE, field by field'
complete -c cmsproof -n '__cmsproof_at 1 help' -a cert -d 'Shows what a checker looks at in the certificate that FILE holds in DER'
complete -c cmsproof -n '__cmsproof_at 1 help' -a fit -d 'Says whether the content and the signed attributes of each signer of the CMS SignedData in FILE belong together'
complete -c cmsproof -n '__cmsproof_at 1 help' -a match -d 'Says whether the response in RESPONSE answers the time-stamp request in REQUEST'
complete -c cmsproof -n '__cmsproof_at 1 help' -a check -d 'Says by when each signature of the CMS SignedData in FILE existed, if the file is accepted'
complete -c cmsproof -n '__cmsproof_at 1 help' -a questions -d 'Prints what a verifier must be asked of the signatures in the CMS SignedData in FILE'
complete -c cmsproof -n '__cmsproof_at 1 help' -a stamp -d 'Says by when a file existed, by a time-stamp token or response that stands beside it'
complete -c cmsproof -n '__cmsproof_at 1 help' -a evidence -d 'Says by when files existed, by an evidence record that stands beside them'
complete -c cmsproof -n '__cmsproof_at 1 help' -a attach -d 'Attaches the time-stamp token in TOKEN to a signer of the CMS SignedData in FILE'
complete -c cmsproof -n '__cmsproof_at 1 help' -a compare -d 'Says whether a signature in the CMS SignedData in A and one in B sign the same'
complete -c cmsproof -n '__cmsproof_at 1 help' -a migrate -d 'Reads the trust list in LIST, of version 1 or 2, and writes it in version 2 into OUT'
complete -c cmsproof -n '__cmsproof_at 1 help' -a help -d 'Print this message or the help of the given subcommand(s)'
