#!/bin/sh
# The demo without a terminal, on the stored pages: recorder and desk as two processes on real files, fast and as fast as they
# can. However late the desk comes, what it reads is right. The last line is 'N passed, M failed'; the exit status is 0 only where
# M is 0.
cd "$(dirname "$0")/../.." || exit 1

passed=0
failed=0
dir=$(mktemp -d) || exit 1
trap 'rm -rf "$dir"' EXIT

# Without the trial maker: what is tested does not depend on whether HDF5 is here.
mkdir "$dir/programs"
for program in recorder desk image; do
    cp "build/demo/$program" "$dir/programs/" || failed=$((failed + 1))
done

for seconds in 0.05 0.005 0; do
    [ "$failed" -eq 0 ] || break
    if c/demo/demo.sh "$dir/programs" "$dir/files" "$seconds" >"$dir/out" 2>&1; then
        passed=$((passed + 1))
    else
        echo "demo, ticks of $seconds seconds:"
        cat "$dir/out"
        failed=$((failed + 1))
    fi
done

echo "$passed passed, $failed failed"
[ "$failed" -eq 0 ]
