#!/bin/sh
# The two programs of README.md: taken out of it as a newcomer would, built against the library, and run side by side. What
# the desk prints depends on the clock, so only what must be so is asked: it holds a tick, and page 2 as of a tick.
# The last line is 'N passed, M failed'.
set -u
cd "$(dirname "$0")/../.." || exit 2
lib=$PWD/target/staticlib/libcabi.a
dir=$(mktemp -d) || exit 2
trap 'rm -rf "$dir"' EXIT

passed=0
failed=0

check() { # WORDS: what must be so; the last status says whether it is
    if [ "$?" -eq 0 ]; then
        passed=$((passed + 1))
    else
        echo "readme: $*"
        failed=$((failed + 1))
    fi
}

# A block of C begins with a comment that names its file.
awk -v dir="$dir" '
    /^```c$/ { block = 1; next }
    /^```$/ { block = 0; file = ""; next }
    block && file == "" { file = dir "/" substr($2, 1, index($2, ":") - 1) }
    block { print > file }
' README.md

for program in recorder desk; do
    "${CC:-cc}" -std=gnu11 -Wall -Wextra -Werror -Ic "$dir/$program.c" "$lib" -o "$dir/$program"
    check "$program.c does not build"
done

if [ "$failed" -eq 0 ]; then
    cd "$dir" || exit 2
    ./recorder >recorder.out 2>&1 &
    recorder=$!
    sleep 1.5
    ./desk >desk.out 2>&1
    check "the desk was refused: $(tail -n 1 desk.out)"
    wait "$recorder"
    check "the recorder was refused: $(tail -n 1 recorder.out)"
    grep -Eq '^holds tick [1-8], the recorder closed [1-8]; page 2: pull [1-5]00 kN$' desk.out
    check "the desk held no tick: $(head -n 1 desk.out)"
    grep -q '^refreshed: page 2 ' desk.out
    check "the desk never refreshed"
    tail -n 1 recorder.out | grep -q '^closed tick 8, page 2 in the base: pull 500 kN$'
    check "the base was not whole: $(tail -n 1 recorder.out)"
fi
echo "$passed passed, $failed failed"
[ "$failed" -eq 0 ]
