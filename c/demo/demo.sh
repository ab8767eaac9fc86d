#!/bin/sh
# The main job in one command (`make demo`): a recorder and a desk, two processes over the library, on two real files that both
# map into memory, while a pull trial goes on. In the end the desk's snapshot is opened with HDF5's own h5dump, and the base alone
# is compared with the file that the stock HDF5 library made.
#
#   demo.sh PROGRAMS DIRECTORY [SECONDS]
#
# PROGRAMS has the built programs; DIRECTORY is emptied and gets the files; SECONDS is what a tick takes. Where PROGRAMS has a
# trial_maker, the trial is made with the stock HDF5 library; else the stored sequence of pages is played. The last line is
# 'N passed, M failed', and the exit status is 0 only where M is 0.
set -u
programs=$1
dir=$2
seconds=${3:-0.4}
hold=16 # in the tick after it all rows of the load table change

passed=0
failed=0

ok() {
    echo "  ok      $*"
    passed=$((passed + 1))
}

wrong() {
    echo "  WRONG   $*"
    failed=$((failed + 1))
}

finish() {
    echo "$passed passed, $failed failed"
    [ "$failed" -eq 0 ]
    exit
}

rm -rf "$dir"
mkdir -p "$dir/made" || exit 2
base=$dir/trial.h5
side=$dir/trial.side
snapshot=$dir/snapshot.h5

echo "1. The trial: a tug pulls on a bollard for 32 minutes. A tick is 80 seconds of it,"
echo "   played in $seconds seconds."
if [ -x "$programs/trial_maker" ]; then
    "$programs/trial_maker" "$dir/made" >"$dir/made.log" || { wrong "no trial was made"; finish; }
    pages=$dir/made/trial.pages
    echo "   An HDF5 file with paged allocation, made with the stock library:"
    echo "   $(cat "$dir/made.log")."
else
    pages=$(dirname "$0")/trial.pages
    echo "   HDF5 is not here: the stored pages of such a file are played, $pages."
    echo "   To make the file here, install libhdf5-dev and hdf5-tools (Debian, Ubuntu) or"
    echo "   hdf5-devel and hdf5 (Fedora)."
fi
last=$(grep -c '^tick ' "$pages")
last=$((last - 1))

# The file as it has to be at a tick: from the stock library, or from the stored pages.
wanted() { # TICK
    if [ -f "$dir/made/tick-$1.h5" ]; then
        echo "$dir/made/tick-$1.h5"
    else
        "$programs/image" "$pages" "$1" >"$dir/wanted-$1.h5"
        echo "$dir/wanted-$1.h5"
    fi
}

echo
echo "2. The recorder writes $base and trial.side; the desk reads both."
echo "   In ticks 9 and 17 the load cell is calibrated anew, and all rows change. The desk"
echo "   stays at tick $hold for as long as it may, and then takes a snapshot of it."
echo
"$programs/recorder" "$pages" "$base" "$side" "$seconds" >"$dir/recorder.log" 2>&1 &
recorder=$!
trap 'kill "$recorder" 2>/dev/null; exit 130' INT TERM HUP
"$programs/desk" "$pages" "$base" "$side" "$snapshot" "$hold"
desk=$?
[ "$desk" -eq 0 ] || kill "$recorder" 2>/dev/null
wait "$recorder"
recorder=$?

echo
echo "3. What came of it."
[ "$recorder" -eq 0 ] || wrong "the recorder ended with status $recorder: $(tail -n 1 "$dir/recorder.log")"
[ "$desk" -eq 0 ] || wrong "the desk ended with status $desk"
[ "$failed" -eq 0 ] || finish
read -r tick closed <"$snapshot.tick"

ok "the load table was whole at each look: all rows of one calibration"
said=$("$programs/image" "$pages" "$tick" "$snapshot")
if [ $? -eq 0 ]; then
    ok "the snapshot of tick $tick, taken when tick $closed was closed:"
    echo "          $said"
    echo "          (raw samples may be ahead: they have no history, and none is promised)"
else
    wrong "the snapshot of tick $tick, taken when tick $closed was closed: $said"
fi

rows() { # FILE: the load table as h5dump prints it, without the line that names the file
    h5dump -d /load_table "$1" 2>&1 | sed 1d
}

if command -v h5dump >/dev/null 2>&1; then
    rows "$snapshot" >"$dir/rows"
    rows "$(wanted "$tick")" >"$dir/rows.wanted"
    count=$(sed -n 's/.*SIMPLE { ( \([0-9]*\) ).*/\1/p' "$dir/rows")
    if [ -n "$count" ] && cmp -s "$dir/rows" "$dir/rows.wanted"; then
        ok "h5dump opens the snapshot: $count rows, those of tick $tick"
    else
        wrong "h5dump does not find the rows of tick $tick: compare $dir/rows with $dir/rows.wanted"
    fi
else
    echo "  (h5dump is not here: install hdf5-tools to open $snapshot with it)"
fi

if cmp -s "$base" "$(wanted "$last")"; then
    ok "the base alone, after the last closes: the file of tick $last byte for byte"
else
    wrong "the base alone is not the file of tick $last: compare $base with $(wanted "$last")"
fi
echo
echo "   The recorder counted:"
sed 's/^/   /' "$dir/recorder.log"
echo
echo "   To see the side file as it was left:"
echo "   build/bin/deskwatch --once $side $base"
echo
finish
