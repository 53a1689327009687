#!/bin/sh
# Shows the session of docs/GUIDE.md: each command that stands there, with the words before it, in a folder of its own that is
# removed afterwards. Where openssl, of version 3.0 or later, and Python's library `cryptography` are there, every command is run.
# Elsewhere, or with the word --stored, the files of data/guide stand for what openssl and the tools made when the guide was
# written: their commands are shown with what they printed then, and the others are run.
set -eu
top=$(cd "$(dirname "$0")" && pwd)
PATH=$top:$top/tools/installed:$PATH
LC_ALL=C.UTF-8 TZ=UTC
export PATH LC_ALL TZ
stored=0
if [ "${1:-}" = --stored ]; then
    stored=1 why="the word --stored was given"
elif ! command -v openssl > /dev/null; then
    stored=1 why="there is no openssl"
elif ! openssl cms -help 2>&1 | grep -q -e -cades; then
    stored=1 why="$(openssl version | cut -d ' ' -f 1,2) is older than OpenSSL 3.0"
elif ! python3 -c 'import cryptography' 2> /dev/null; then
    stored=1 why="there is no python3 with its library cryptography"
fi
folder=$(mktemp -d)
trap 'rm -rf "$folder"' EXIT
mkdir "$folder/session"
[ "$stored" -eq 0 ] || cp "$top"/data/guide/* "$folder/session"

# Turns the guide into a script. In it `say` shows a text, a command stands as it is, and `ended` looks at its status.
awk -v stored="$stored" '
    function quoted(text) { gsub(/\047/, "\047\\\047\047", text); return "\047" text "\047" }
    function finish() {
        if (command == "") return
        print "say " quoted("$ " command)
        if (stored && command ~ /openssl|cmsproof-(trust|verify|archive)/) {
            print "say " quoted("(not run here, but its output and its files are there)")
            if (was != "") print "say " quoted(was)
        } else {
            print command
            print "ended $? " quoted(command)
        }
        command = was = ""
    }
    /^```console run/ {
        inside = 1
        if (title != "") print "say \047\047 " quoted(title)
        print "say \047\047"
        if (words != "") print "say " quoted(words) " \047\047"
        title = words = ""
        next
    }
    /^```/ { finish(); inside = 0; words = ""; next }
    inside && going { command = command "\n" $0; going = document ? $0 != "END" : /[\\|]$/; if (!going) document = 0; next }
    inside && /^\$ / { finish(); command = substr($0, 3); document = /<<\047?END/; going = document || /[\\|]$/; next }
    inside { was = was (was == "" ? "" : "\n") $0; next }
    /^#/ { title = /^###/ && title != "" ? title "\n\n" $0 : $0; words = ""; next }
    /^$/ { blank = 1; next }
    { words = blank || words == "" ? $0 : words "\n" $0; blank = 0 }
' "$top/docs/GUIDE.md" > "$folder/script"

cat > "$folder/words" << 'END'
say() { printf '%s\n' "$@"; }
ended() {
    [ "$1" -le 1 ] && return
    echo "demo: status $1: $2" >&2
    exit 1
}
END
cat "$folder/words" "$folder/script" > "$folder/whole"
cd "$folder/session"
sh "$folder/whole" 2>&1
[ "$stored" -eq 0 ] || printf '\n%s\n' "This session was shown on stored files, since $why."
[ "$stored" -eq 1 ] || printf '\n%s\n' "All of this was run just now, with $(openssl version)."
