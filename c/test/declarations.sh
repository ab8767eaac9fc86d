#!/bin/sh
# tools/declarations on wrong copies: each edit makes one declaration differ from the sources, in the header, in rust/proved or
# in the sources, and must be named. The last line is 'N passed, M failed'; the exit status is 0 only where M is 0.
cd "$(dirname "$0")/../.." || exit 1

passed=0
failed=0
dir=$(mktemp -d) || exit 1
trap 'rm -rf "$dir"' EXIT

wrong() {
    echo "declarations: $*"
    failed=$((failed + 1))
}

mkdir -p "$dir/right/c" "$dir/right/rust/proved" && cp c/ungletice.h "$dir/right/c" && cp -R rust/proved/src "$dir/right/rust/proved"
for crate in crates/*/; do
    mkdir -p "$dir/right/$crate" && cp -R "${crate}src" "$dir/right/$crate"
done

if tools/declarations "$dir/right" >"$dir/said"; then
    passed=$((passed + 1))
else
    wrong "refused as it is: $(cat "$dir/said")"
fi

# The copy with one file edited: refused, in a line that has the text.
caught() { # NAME FILE EDIT TEXT
    rm -rf "$dir/copy"
    cp -R "$dir/right" "$dir/copy"
    sed "$3" "$dir/right/$2" >"$dir/copy/$2"
    if cmp -s "$dir/right/$2" "$dir/copy/$2"; then
        wrong "$1: the edit changes nothing"
    elif tools/declarations "$dir/copy" >"$dir/said"; then
        wrong "$1: not caught"
    elif ! grep -q "^declarations: $4" "$dir/said"; then
        wrong "$1: not named: $(head -n 1 "$dir/said")"
    else
        passed=$((passed + 1))
    fi
}

c=c/ungletice.h
recorder=rust/proved/src/recorder.rs
desk=rust/proved/src/desk.rs
exports=crates/cabi/src

caught "parameters swapped, C" $c 's/\(uint32_t page\), \(uint32_t offset\), \(uint8_t \*into\)/\2, \1, \3/' \
    'ungletice_recorder_read, parameter 12: '
caught "parameters swapped, Rust" $recorder '/fn ungletice_recorder_open(/,/)/{s/ end:/ other:/;s/tick:/end:/;s/other:/tick:/;}' \
    'ungletice_recorder_open, parameter 2: '
caught "slices swapped, C" $c 's/ungletice_take(\(const .*side_length\), \(uint8_t .*held_length\))/ungletice_take(\2, \1)/' \
    'ungletice_take, parameter 1: '
caught "a parameter too few, C" $c 's/, uint32_t start)/)/' \
    'ungletice_lookup3, parameter 3: .* nothing in c/ungletice.h'
caught "a parameter too many, Rust" $recorder '/fn ungletice_recorder_grow(/s/(/(more: u32,/' 'ungletice_recorder_grow, parameter 1: '
caught "a width narrowed, C" $c 's/^uint32_t ungletice_end(/uint16_t ungletice_end(/' 'ungletice_end, the answer: '
caught "a width narrowed, Rust" $recorder '/fn ungletice_end(/s/u32/u16/' 'ungletice_end, the answer: '
caught "a length narrowed, C" $c '/^uint32_t ungletice_take(/s/size_t/uint32_t/' 'ungletice_take, parameter 2: '
# shellcheck disable=SC2016 # nothing to expand
caught "const lost, C" $c '/^uint32_t ungletice_take(/s/const //' \
    'ungletice_take, parameter 1: `const uint8_t \*side` in .*, `uint8_t \*side` in c/ungletice.h'
caught "const lost, Rust" $desk '/fn ungletice_take(/,/)/s/\*const u8/*mut u8/' 'ungletice_take, parameter 1: '
caught "const gained, C" $c '/^ungletice_answer ungletice_recorder_close(/s/, uint8_t/, const uint8_t/' \
    'ungletice_recorder_close, parameter 2: '
caught "a function missing, C" $c '/^size_t ungletice_held_length(/d' 'ungletice_held_length: c/ungletice.h does not declare it'
caught "a function missing, Rust" $recorder '/fn ungletice_held_length(/d' 'ungletice_held_length: rust/proved/src does not declare it'
caught "a function too many, C" $c 's/^size_t ungletice_held_length(/size_t ungletice_made_up(uint32_t x); &/' \
    'ungletice_made_up: c/ungletice.h declares it'
caught "fields swapped, C" $c 's/accesses, hits, misses/accesses, misses, hits/' 'ungletice_counts, field 2: '
caught "fields swapped, Rust" $recorder '/pub struct State/,/}/{s/ end:/ other:/;s/closed:/end:/;s/other:/closed:/;}' \
    'ungletice_state, field 2: '
caught "a field narrowed, C" $c 's/uint32_t order\[16\]/uint16_t order[16]/' 'ungletice_slots, field 3: '
caught "an array shorter, Rust" $recorder 's/pub changed: \[u8; 16\]/pub changed: [u8; 15]/' 'ungletice_slots, field 2: '
caught "a field too few, C" $c '/uint32_t closed;  /d' 'ungletice_state, field 3: '
caught "no layout, Rust" $recorder '1,/repr(C)/s/repr(C)/allow(dead_code)/' 'ungletice_settings: rust/proved/src does not declare it'
caught "a number, C" $c 's/UNGLETICE_REFUSED_LAG = 13/UNGLETICE_REFUSED_LAG = 12/' 'UNGLETICE_REFUSED_LAG: '
caught "a number missing, C" $c '/UNGLETICE_REFUSED_SPAN = 6/d' 'UNGLETICE_REFUSED_SPAN: c/ungletice.h does not declare it'
caught "a new export" $exports/lib.rt 's/^pub extern "C" fn/pub extern "C" fn ungletice_more() -> u32 { 0 } #[unsafe(no_mangle)] &/' \
    'ungletice_more: c/ungletice.h does not declare it'
caught "an export that is none any more" $exports/lib.rt '/no_mangle/d' 'ungletice_lookup3: c/ungletice.h declares it'
caught "a width in a signature of several lines" $exports/recording.rt '/fn ungletice_recorder_grow(/,/)/s/kind: u32/kind: u8/' \
    'ungletice_recorder_grow, parameter 12: '
caught "a parameter more in a signature of several lines" $exports/recording.rt \
    '/fn ungletice_recorder_grow(/,/)/s/kind: u32,/& more: u32,/' \
    'ungletice_recorder_grow, parameter 13: .* nothing in c/ungletice.h'
caught "a slice that is now written" $exports/viewer.rt 's/ungletice_refresh(side: &\[u8\]/ungletice_refresh(side: \&mut [u8]/' \
    'ungletice_refresh, parameter 1: '
caught "a struct without layout" crates/slots/src/lib.rt 's/^#\[repr(C)\]//' 'ungletice_slots: .* no crate declares it #\[repr(C)\]'
caught "a tuple struct that is wider" crates/units/src/lib.rt 's/pub struct Tick(pub u32)/pub struct Tick(pub u64)/' \
    'ungletice_state, field 3: '

echo "$passed passed, $failed failed"
[ "$failed" -eq 0 ]
