#!/bin/sh
# The built program build/bin/deskwatch on side files that c/test/sidefile.c writes: single looks at good and damaged files, a
# live file that moves on, falls out of reach, is damaged, mended and removed, and the lock. The last line is 'N passed, M
# failed'; the exit status is 0 only where M is 0.
cd "$(dirname "$0")/../.." || exit 1

passed=0
failed=0
dir=$(mktemp -d) || exit 1
watch=
trap '[ -z "$watch" ] || kill "$watch" 2>/dev/null; rm -rf "$dir"' EXIT

finish() {
    echo "$passed passed, $failed failed"
    [ "$failed" -eq 0 ]
    exit
}

wrong() {
    echo "deskwatch: $*"
    failed=$((failed + 1))
}

expect() { # NAME GOT WANTED
    if [ "$2" = "$3" ]; then
        passed=$((passed + 1))
    else
        wrong "$1: '$2', not '$3'"
    fi
}

program=build/bin/deskwatch
[ -x $program ] || { wrong "$program is not built: make programs"; finish; }
${CC:-cc} -O2 -std=c11 -Wall -Wextra -Werror c/test/sidefile.c c/bench/hashlittle.c -o "$dir/sidefile" ||
    { wrong "the generator does not build"; finish; }

# A look at a side file: the first line that deskwatch prints, and its exit status.
once() { # NAME STATUS LINE ARGUMENT..
    name=$1
    status=$2
    line=$3
    shift 3
    "$dir/sidefile" "$@" >"$dir/side"
    $program --once "$dir/side" >"$dir/out" 2>&1
    expect "$name, status" "$?" "$status"
    expect "$name" "$(cat "$dir/out")" "$line"
}

damaged='refused 12: the side file is damaged, too short, or has other settings than those held: take again, or mend the file'
foreign='refused 11: not a side file of this version: check the file, and which program wrote it'

once "the example" 0 "tick 1  lag 0 of 3  end 4  entries 1  taken"
once "no entry" 0 "tick 0  lag 0 of 3  end 0  entries 0  taken" tick=0 end=0 none
once "a full index" 0 "tick 4294967295  lag 0 of 8  end 65535  entries 144  taken" \
    lag=8 slots=16 size=4096 tick=4294967295 end=65535 full
once "nothing" 1 "$foreign" only=0
once "another mark" 1 "$foreign" byte=0:116
once "a header alone" 1 "$damaged" only=36
once "a wrong checksum" 1 "$damaged" late=32:0

# With a base: the images are read.
"$dir/sidefile" >"$dir/side"
head -c 2048 /dev/zero >"$dir/base"
$program --once "$dir/side" "$dir/base" >"$dir/out"
expect "the example with a base, status" "$?" 0
expect "the example with a base" "$(wc -l <"$dir/out")" 1
head -c 2047 /dev/zero >"$dir/base"
$program --once "$dir/side" "$dir/base" >"$dir/out"
expect "a base one byte short, status" "$?" 1
expect "a base one byte short" "$(tail -n 1 "$dir/out")" \
    "page 2 refused 2: a lent buffer is too short: lend one of the length that the settings ask for"
head -c 2048 /dev/zero >"$dir/base"
"$dir/sidefile" late=512:99 >"$dir/side"
$program --once "$dir/side" "$dir/base" >"$dir/out"
expect "a damaged image, status" "$?" 1
expect "a damaged image" "$(tail -n 1 "$dir/out" | cut -c 1-47)" "page 2 refused 14: the image of the page is dam"

# The command line.
fails() { # NAME WORD..
    name=$1
    shift
    $program "$@" >"$dir/out" 2>"$dir/err"
    expect "$name, status" "$?" 2
    expect "$name, nothing on standard output" "$(cat "$dir/out")" ""
}
fails "no file" --once
fails "three files" --once "$dir/side" "$dir/base" "$dir/base"
fails "an unknown option" --twice "$dir/side"
fails "an interval of 0" --interval 0 "$dir/side"
fails "an interval that is no number" --interval soon "$dir/side"
expect "what is said of it" "$(cat "$dir/err")" "deskwatch: --interval takes seconds from 0.01 to 3600, not 'soon'"
fails "a missing file" --once "$dir/none"
expect "what is said of it" "$(cat "$dir/err")" "deskwatch: $dir/none: No such file or directory"
fails "a missing base" --once "$dir/side" "$dir/none"
$program --help >"$dir/out"
expect "--help, status" "$?" 0
expect "--help" "$(head -n 1 "$dir/out")" "usage: deskwatch [--once] [--interval SECONDS] SIDEFILE [BASEFILE]"

# A live file: each change replaces it, and its lines are waited for.
put() { # ARGUMENT..
    "$dir/sidefile" "$@" >"$dir/next"
    mv "$dir/next" "$dir/live"
}

await() { # NAME LINES LAST
    tries=0
    while [ "$(wc -l <"$dir/log")" -lt "$2" ] && [ "$tries" -lt 200 ]; do
        sleep 0.05
        tries=$((tries + 1))
    done
    expect "$1" "$(tail -n 1 "$dir/log")" "$3"
}

: >"$dir/log"
put tick=1
$program --interval 0.02 "$dir/live" >"$dir/log" 2>"$dir/err" &
watch=$!
await "the first look" 1 "tick 1  lag 0 of 3  end 4  entries 1  taken"
put tick=2 entry=2:0:1
await "a tick without a change" 2 "tick 2  lag 1 of 3  end 4  entries 1  marked 0"
put tick=4 end=5 entry=2:0:1 entry=3:2:3 entry=4:1:4
await "two changes in two ticks" 3 "tick 4  lag 2 of 3  end 5  entries 3  marked 2: 3 4"
put tick=6 end=5 entry=3:2:6
await "the same place, changed again" 4 "tick 6  lag 2 of 3  end 5  entries 1  marked 1: 3"
put tick=10 end=5 entry=3:2:10
await "out of reach: taken again" 6 "tick 10  lag 0 of 3  end 5  entries 1  taken"
expect "out of reach: the refusal" "$(tail -n 2 "$dir/log" | head -n 1)" \
    "refused 13: the held tick is out of reach of the side file's: take again"
put tick=11 end=5 entry=3:2:10 late=32:0
await "damaged" 7 "$damaged"
sleep 0.2
expect "said once" "$(wc -l <"$dir/log")" 7
put tick=11 end=5 entry=3:2:10
await "mended" 8 "tick 11  lag 0 of 3  end 5  entries 1  taken"
rm "$dir/live"
sleep 0.2
expect "removed, said once" "$(cat "$dir/err")" "deskwatch: $dir/live: No such file or directory"
put tick=12 end=5 none
await "there again" 9 "tick 12  lag 1 of 3  end 5  entries 0  marked 0"
kill -TERM "$watch"
wait "$watch"
expect "ended by a signal, status" "$?" 0
watch=

# The lock: a look waits for a writer that has it.
if command -v flock >/dev/null 2>&1; then
    "$dir/sidefile" tick=1 >"$dir/side"
    "$dir/sidefile" tick=2 >"$dir/next"
    flock -x "$dir/side" sh -c 'head -c 20 "$1/next" >"$1/side"; : >"$1/locked"; sleep 0.3; cat "$1/next" >"$1/side"' sh "$dir" &
    writer=$!
    while [ ! -e "$dir/locked" ]; do sleep 0.02; done
    expect "a look while a writer has the lock" "$($program --once "$dir/side")" "tick 2  lag 0 of 3  end 4  entries 1  taken"
    wait "$writer"
fi

finish
