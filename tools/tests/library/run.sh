#!/bin/sh
# run.sh LIBRARY: the C program beside this file, built on the library in that folder, in four ways: with the sanitizers of gcc on
# the library of objects; as C99 on the shared library, under valgrind; as C++; by clang. For each real file the first line that it
# prints must be the line of the command ./cmsproof, and the answer in numbers the same in all four. Then the library beside abi.txt;
# each allocation refused in turn, also of evidence records that are checked, made and renewed, and of a file under one, under
# valgrind: what is made must be what the command writes, and show its document; 8 threads under TSan, helgrind and drd. It prints a
# line for each file, and ends with status 1 at the first that differs. `soak.sh` does more of this for longer.
set -eu
unset CDPATH
cd "$(dirname "$0")/../../.."
library=$(cd "$1" && pwd) source=tools/tests/library/lines.c real=data/real
folder=$(mktemp -d)
trap 'rm -rf "$folder"' EXIT

gcc -std=c99 -g -Wall -Wextra -Werror -pedantic -fsanitize=address,undefined -fno-sanitize-recover=all -Iinclude \
    -o "$folder/sanitized" "$source" "$library/libcmsproof.a"
gcc -std=c99 -g -Wall -Wextra -Werror -pedantic -Iinclude -o "$folder/shared" "$source" -L"$library" -lcmsproof
g++ -std=c++11 -g -Wall -Wextra -Werror -Iinclude -x c++ -o "$folder/plusplus" "$source" -x none "$library/libcmsproof.a"
clang -std=c99 -g -Wall -Wextra -Werror -Iinclude -o "$folder/clang" "$source" "$library/libcmsproof.a"

same() { # what the four programs say of a file, and the command's line
    name=$1 program=$2
    shift 2
    ASAN_OPTIONS=detect_leaks=1 "$folder/sanitized" "$@" > "$folder/1"
    LD_LIBRARY_PATH=$library valgrind -q --error-exitcode=9 --leak-check=full --show-leak-kinds=all "$folder/shared" "$@" > "$folder/2"
    "$folder/plusplus" "$@" > "$folder/3"
    "$folder/clang" "$@" > "$folder/4"
    for other in 2 3 4; do cmp "$folder/1" "$folder/$other"; done
    [ "$(head -1 "$folder/1")" = "$program" ] || {
        echo "$name: the command says '$program', the library '$(head -1 "$folder/1")'"
        exit 1
    }
    echo "$name: $(tr '\n' ' ' < "$folder/1")"
}

python3 tools/tests/library/abi.py "$library"

sh tools/tests/library/known.sh "$folder"
known="$real/trust.txt $folder/answers $real/blob.bin"
token=crates/real_files/data/rsa_attached.1.tok
build() { # NAME FLAG ..: builds the program NAME.c as FOLDER/NAME
    program=$1
    shift
    gcc -std=c99 -g -Wall -Wextra -Werror -pedantic -Iinclude -pthread -o "$folder/$program" "$@" "tools/tests/library/$program.c" \
        "$library/libcmsproof.a"
}
build refused -Wl,--wrap=malloc,--wrap=realloc,--wrap=free
# shellcheck disable=SC2086 # three words
valgrind -q --error-exitcode=9 --leak-check=no "$folder/refused" $known "$token" "${token%.tok}.tsq" "${token%.tok}.tsr" "$real/rsa_detached_ts.p7s" "$real/noattr.p7s"
build evidence -Wl,--wrap=malloc,--wrap=realloc,--wrap=free
records=data/records
for name in one_document renewed_by_a_hash_tree renewed_five_times; do
    valgrind -q --error-exitcode=9 --leak-check=no "$folder/evidence" $records/trust.txt $records/answers.txt sha1=20160101000000Z '' 0 \
        $records/records/bouncy_castle_$name.ers $records/files/document_0 | grep -q '^accepted '
done
build under -Wl,--wrap=malloc,--wrap=realloc,--wrap=free
python3 tools/tests/library/under_inputs.py "$folder"
under="$folder/under.trust $folder/under.answers"
# shellcheck disable=SC2086 # two words
valgrind -q --error-exitcode=9 --leak-check=no "$folder/under" $under '' 20261231000000Z "$folder/under.record" "$folder/under.file" |
    grep -q '^accepted 20240115100000Z$'
# shellcheck disable=SC2086
valgrind -q --error-exitcode=9 --leak-check=no "$folder/under" $under '' '' "$folder/under.record" "$folder/under.file" "$folder/under.file" |
    grep -q '^refused C5 ContentTwice$'
# shellcheck disable=SC2086
valgrind -q --error-exitcode=9 --leak-check=no "$folder/under" $under sha256=20240119235959Z '' "$folder/under.record" "$folder/under.file" |
    grep -q '^refused record chain 1 stamp 1 W6 Weak$'
build making -Wl,--wrap=malloc,--wrap=realloc,--wrap=free
python3 tools/tests/library/making_inputs.py "$folder"
valgrind -q --error-exitcode=9 --leak-check=no "$folder/making" "$folder"
mkdir "$folder/written"
echo "$(sha256sum < $records/files/document_0 | cut -c-64)  make" > "$folder/sums"
./cmsproof evidence make --token "$folder/make.token" --into "$folder/written" "$folder/sums"
cp "$folder/renew.old" "$folder/written/renew.ers"
./cmsproof evidence renew --token "$folder/renew.token" "$folder/written/renew.ers"
cp "$folder/rehash.old" "$folder/written/rehash.ers"
echo "$(sha512sum < $records/files/document_0 | cut -c-128)  rehash" > "$folder/sums"
./cmsproof evidence rehash --alg sha512 --token "$folder/rehash.token" --into "$folder/written" "$folder/sums"
for name in make renew rehash; do
    cmp "$folder/$name.new" "$folder/written/$name.ers"
    "$folder/evidence" $records/trust.txt $records/answers.txt sha1=20160101000000Z '' 0 "$folder/$name.new" $records/files/document_0 |
        grep -q '^accepted '
done
build threads -fsanitize=thread
# shellcheck disable=SC2086
"$folder/threads" $known 3 "$real"/*.p7s
build threads
for tool in helgrind drd; do
    # shellcheck disable=SC2086
    valgrind -q --tool=$tool --error-exitcode=9 "$folder/threads" $known 0 "$real"/*.p7s
done

count=0
for file in "$real"/*.p7s; do
    name=$(basename "$file" .p7s)
    ./cmsproof questions --trust "$real/trust.txt" "$file" > "$folder/questions" || true
    head -1 "$folder/questions" | grep -q '^cmsproof questions' || echo 'cmsproof questions 1' > "$folder/questions"
    python3 tools/installed/cmsproof-verify "$folder/questions" "$folder/answers"
    echo 'cmsproof answers 1' > "$folder/none"
    for answers in answers none; do
        for content in - "$real/blob.bin" /dev/null; do
            if [ "$content" = - ]; then
                line=$(./cmsproof check --trust "$real/trust.txt" --answers "$folder/$answers" "$file" 2>&1) || true
                same "$name" "$line" "$real/trust.txt" "$folder/$answers" "$file"
            else
                cp "$content" "$folder/content"
                line=$(./cmsproof check --trust "$real/trust.txt" --answers "$folder/$answers" --content "$folder/content" "$file" 2>&1) || true
                same "$name" "$line" "$real/trust.txt" "$folder/$answers" "$file" "$folder/content"
            fi
            count=$((count + 1))
        done
    done
done
echo "library: $count verdicts, the same in four builds as the command's"
