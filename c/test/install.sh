#!/bin/sh
# `make install` into an empty folder: all files are there, a program builds against them as the pkg-config file says, in C and,
# where there is a compiler, in C++. The last line is 'N passed, M failed'; the exit status is 0 only where M is 0.
cd "$(dirname "$0")/../.." || exit 1

passed=0
failed=0
dir=$(mktemp -d) || exit 1
trap 'rm -rf "$dir"' EXIT

check() { # NAME COMMAND..
    name=$1
    shift
    if "$@" >"$dir/out" 2>&1; then
        passed=$((passed + 1))
    else
        echo "install: $name"
        cat "$dir/out"
        failed=$((failed + 1))
    fi
}

check "make install" make --no-print-directory install PREFIX=/opt/here DESTDIR="$dir/root"
to=$dir/root/opt/here
for file in lib/libungletice.a lib/pkgconfig/ungletice.pc include/ungletice.h bin/sidelist bin/deskwatch \
    share/man/man1/sidelist.1 share/man/man1/deskwatch.1 share/man/man3/ungletice.3; do
    check "$file is missing" test -s "$to/$file"
done
check "the prefix in the pkg-config file" grep -qx 'prefix=/opt/here' "$to/lib/pkgconfig/ungletice.pc"
check "the version in the pkg-config file" grep -qE '^Version: [0-9]+\.[0-9]+$' "$to/lib/pkgconfig/ungletice.pc"

cat >"$dir/use.c" <<'END'
#include <ungletice.h>
static ungletice_recording recording;
static ungletice_view view;
int main(void)
{
    return ungletice_lookup3(0, 0, 0) != 0xdeadbeef || ungletice_recording_close(&recording) != UNGLETICE_REFUSED_STATE
        || ungletice_view_take(&view) != UNGLETICE_REFUSED_FOREIGN || ungletice_refusal_text(11)[0] == 0;
}
END
flags=$(pkg-config --define-variable=prefix="$to" --cflags --libs "$to/lib/pkgconfig/ungletice.pc" 2>/dev/null)
[ -n "$flags" ] || flags="-I$to/include -L$to/lib -lungletice"
# shellcheck disable=SC2086 # flags are words
check "a C program does not build" ${CC:-cc} -std=c11 -Wall -Wextra -Werror "$dir/use.c" $flags ${LDLIBS:-} -o "$dir/use"
check "a C program does not run" "$dir/use"
cxx=${CXX:-c++}
if command -v "${cxx%% *}" >/dev/null 2>&1; then
    # shellcheck disable=SC2086
    check "a C++ program does not build" $cxx -Wall -Wextra -Werror -x c++ "$dir/use.c" -x none $flags ${LDLIBS:-} -o "$dir/use"
    check "a C++ program does not run" "$dir/use"
fi

echo "$passed passed, $failed failed"
[ "$failed" -eq 0 ]
