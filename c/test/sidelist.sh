#!/bin/sh
# The built program target/bin/sidelist on side files that c/test/sidefile.c writes: the listing of good ones, the number that
# each kind of damage is refused by, and an input that cannot be read. The last line is 'N passed, M failed'; the exit status is
# 0 only where M is 0.
cd "$(dirname "$0")/../.." || exit 1

passed=0
failed=0
dir=$(mktemp -d) || exit 1
trap 'rm -rf "$dir"' EXIT

finish() {
    echo "$passed passed, $failed failed"
    [ "$failed" -eq 0 ]
    exit
}

wrong() {
    echo "sidelist: $*"
    failed=$((failed + 1))
}

[ -x target/bin/sidelist ] || { wrong "target/bin/sidelist is not built"; finish; }
${CC:-cc} -O2 -std=c11 -Wall -Wextra -Werror c/test/sidefile.c c/bench/hashlittle.c -o "$dir/sidefile" || { wrong "the generator does not build"; finish; }

# Compares what sidelist writes for $dir/in with $dir/want.
compare() { # NAME
    target/bin/sidelist <"$dir/in" >"$dir/out"
    if cmp -s "$dir/out" "$dir/want"; then
        passed=$((passed + 1))
    else
        wrong "$1: printed '$(head -n 2 "$dir/out")', not '$(head -n 2 "$dir/want")'"
    fi
}

lists() { # NAME TEXT ARGUMENT..
    name=$1
    printf "$2" >"$dir/want"
    shift 2
    "$dir/sidefile" "$@" >"$dir/in" || { wrong "$name: no file"; return; }
    compare "$name"
}

refuses() { # NUMBER NAME ARGUMENT..
    number=$1
    name=$2
    shift 2
    lists "$name" "refused $number\n" "$@"
}

example='tick 1 end 4 entries 1\n2 0 1\n'

# Good files.
lists "the example" "$example"
lists "one byte longer" "$example" more=1
lists "much longer" "$example" more=3000000
lists "no entry" 'tick 0 end 0 entries 0\n' tick=0 end=0 none
lists "the largest tick" 'tick 4294967295 end 4 entries 1\n3 13 4294967295\n' tick=4294967295 entry=3:13:4294967295
lists "two entries" 'tick 10 end 65535 entries 2\n0 9 10\n65534 0 7\n' tick=10 end=65535 entry=0:9:10 entry=65534:0:7
lists "the smallest settings" 'tick 1 end 4 entries 1\n2 0 1\n' slots=1
lists "pages of 1024" "$example" size=1024
lists "pages of 2048" "$example" size=2048
lists "pages of 4096" "$example" size=4096
lists "bytes before the images" "$example" byte=164:1 byte=511:255
lists "a wrong image" "$example" late=512:99

# The largest index: 144 entries, and with it the longest text that there is.
{
    echo "tick 4294967295 end 65535 entries 144"
    i=0
    while [ "$i" -lt 144 ]; do
        echo "$((65391 + i)) $((271 - i)) 4294967295"
        i=$((i + 1))
    done
} >"$dir/want"
"$dir/sidefile" lag=8 slots=16 size=4096 tick=4294967295 end=65535 full >"$dir/in"
compare "a full index"
"$dir/sidefile" lag=8 slots=16 size=4096 tick=4294967295 end=65535 full | dd bs=13 2>/dev/null | target/bin/sidelist >"$dir/out"
if cmp -s "$dir/out" "$dir/want"; then passed=$((passed + 1)); else wrong "a full index in small pieces"; fi

# The stored run is the example.
"$dir/sidefile" >"$dir/in"
if cmp -s "$dir/in" crates/sidelist/stdin; then passed=$((passed + 1)); else wrong "crates/sidelist/stdin is not the example"; fi

# 11.
refuses 11 "nothing" only=0
refuses 11 "35 bytes" only=35
refuses 11 "byte 0 of the mark" byte=0:116
refuses 11 "byte 1 of the mark" byte=1:0
refuses 11 "byte 2 of the mark" byte=2:77
refuses 11 "byte 3" byte=3:1
refuses 11 "version 2" byte=4:2
refuses 11 "version 257" byte=5:1
refuses 11 "the mark, with a wrong checksum" late=0:0 late=32:0

# 12, of the header.
refuses 12 "its checksum" late=32:0
refuses 12 "a byte under its checksum" late=12:2
refuses 12 "L 2" lag=2
refuses 12 "L 9" lag=9
refuses 12 "S 0" slots=0 none
refuses 12 "S 17" slots=17
refuses 12 "P 256" size=256
refuses 12 "P 1000" size=1000
refuses 12 "P 8192" size=8192
refuses 12 "P 0" size=0 none more=10000
refuses 12 "byte 26" byte=26:1
refuses 12 "byte 27" byte=27:1
refuses 12 "one byte short" less=1
refuses 12 "the header alone" only=36
refuses 12 "header and index alone" only=164
refuses 12 "e above 65535" end=65536
refuses 12 "n above X" end=9 entry=0:0:1 entry=1:1:1 entry=2:2:1 entry=3:3:1 entry=4:4:1 entry=5:5:1 entry=6:6:1 entry=7:7:1 \
    entry=8:8:1

# 12, of the index.
refuses 12 "a page twice" entry=2:0:1 entry=2:1:1
refuses 12 "pages descending" entry=2:0:1 entry=1:1:1
refuses 12 "a page not below e" entry=4:0:1
refuses 12 "a place not below M" entry=2:14:1
refuses 12 "a place twice" entry=1:5:1 entry=2:5:1
refuses 12 "a change after the closed tick" entry=2:0:2
refuses 12 "a spare entry's first byte" byte=52:1
refuses 12 "a spare entry's last byte" byte=163:1
refuses 12 "its checksum" sum=1
refuses 12 "a byte under its checksum" late=44:0
refuses 12 "a full index with its last place used twice" lag=8 slots=16 tick=9 end=144 full byte=2328:129

# An input that cannot be read is no side file: no listing, and one line on standard error.
unread() { # NAME, of what left $dir/out and $dir/err
    if [ ! -s "$dir/out" ] && [ "$(wc -l <"$dir/err")" -eq 1 ] && grep -q '^sidelist: standard input: .' "$dir/err"; then
        passed=$((passed + 1))
    else
        wrong "$1: printed '$(head -n 2 "$dir/out")', said '$(head -n 2 "$dir/err")'"
    fi
}

target/bin/sidelist </ >"$dir/out" 2>"$dir/err"
unread "a directory"
target/bin/sidelist 0>"$dir/in" >"$dir/out" 2>"$dir/err"
unread "an input open for writing alone"
# Where an emulator runs the program, descriptor 0 may be the program itself, if it is free.
if [ "$(uname -m)" = x86_64 ]; then
    target/bin/sidelist <&- >"$dir/out" 2>"$dir/err"
    unread "a closed input"
fi

# A listing that cannot be written is told there too.
if [ -c /dev/full ]; then
    target/bin/sidelist <crates/sidelist/stdin >/dev/full 2>"$dir/err"
    if grep -q '^sidelist: standard output: .' "$dir/err"; then passed=$((passed + 1)); else wrong "a full output"; fi
fi

finish
