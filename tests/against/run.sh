#!/usr/bin/env bash
# The original and Leanlantern on the same calls, on shared ground: every answer, hole list, room report, reader and held byte must
# agree. A resize, which the original does not have, is done on it by its own grants and frees. Tilings of small heaps come first, then
# every small opening and every alignment with the sizes at its limits, then random runs on arenas of up to 65,536 bytes, then runs on
# arenas of up to 16,777,216 bytes with up to 524,288 holes. Most runs begin with calls on an unopened heap. A part of the runs is made
# again on an original that was built with its debug assertions on. Then comes the same comparison with a planted fault in a copy of the
# original, or of the Rust package through which ours is asked; it must report each.
#
# usage: tests/against/run.sh [--short] [--seed N] [ORIGINAL-FOLDER]     (default folder: ../shared/docs/src beside the repository)
. "$(dirname "$0")/../preamble.sh"
here=$root/tests/against
. "$root/tests/bindings.sh"
. "$here/reader.sh"

units=10 named=48 calls=2000000 runs=120 built=201000 seed=1
# of these with the original's debug assertions on
on_units=7 on_named=48 on_calls=500000 on_runs=4
original=''
while [ $# -gt 0 ]; do
    case $1 in
    --short)
        units=7 named=24 calls=100000 runs=3 built=2000
        on_units=4 on_named=24 on_calls=20000 on_runs=''
        ;;
    --seed)
        [ $# -ge 2 ] || { echo "against: --seed wants a number" >&2; exit 2; }
        seed=$2
        shift
        ;;
    -*) echo "usage: tests/against/run.sh [--short] [--seed N] [ORIGINAL-FOLDER]" >&2; exit 2 ;;
    *) original=$1 ;;
    esac
    shift
done
case $seed in '' | *[!0-9]*) echo "against: --seed wants a number" >&2; exit 2 ;; esac
original=${original:-$root/../shared/docs/src}
[ -f "$original/src/hole.rs" ] || { echo "against: no src/hole.rs in $original (give the original's folder)" >&2; exit 2; }

need_library "$root"

# usage: build_driver NAME ORIGINAL BINDINGS [OPTION]..
build_driver() {
    rustc --edition 2021 "${@:4}" "$here/main.rs" --extern "linked_list_allocator=$2/liblinked_list_allocator.rlib" \
        --extern "leanlantern=$3/libleanlantern.rlib" -o "$work/$1/against"
}

# usage: build_against NAME [SED-EXPRESSION [OPTION]]   (the option is for the original. The first difference of a fault comes at once, and
# the runs with assertions are few, so their drivers are not optimised)
build_against() {
    local options=()
    if [ $# -eq 1 ]; then options=(-O -Ccodegen-units=1); fi
    mkdir "$work/$1"
    build_original "$original" "$work/$1/liblinked_list_allocator.rlib" "${2:-}" "${3:-}"
    build_driver "$1" "$work/$1" "$work" "${options[@]}"
}

# usage: build_faulty_ours NAME SED-EXPRESSION   (the fault is in a copy of the bindings, and the original is the true one)
build_faulty_ours() {
    mkdir "$work/$1"
    cp -r "$root/bindings/src" "$work/$1/src"
    sed -i "$2" "$work/$1/src/lib.rs"
    if cmp -s "$root/bindings/src/lib.rs" "$work/$1/src/lib.rs"; then
        echo "against: the planted fault $1 does not fit the bindings" >&2
        return 1
    fi
    build_bindings "$root" "$work/$1/libleanlantern.rlib" "$work/$1/src"
    build_driver "$1" "$work/true" "$work/$1"
}

build_bindings "$root" "$work/libleanlantern.rlib"
build_against true
echo "tilings of up to $units units"
"$work/true/against" tilings "$units"
echo "openings of up to $named bytes, and sizes at the limits of every alignment"
"$work/true/against" edges "$named"
echo "random runs, seed $seed"
"$work/true/against" run "$seed" "$calls"
echo "arenas of up to 16,777,216 bytes, seed $seed"
"$work/true/against" dock "$seed" "$runs" "$built"

build_against asserting '' -Cdebug-assertions=on
echo "with the original's debug assertions on: tilings of up to $on_units units, openings of up to $on_named bytes, random runs"
"$work/asserting/against" tilings "$on_units"
"$work/asserting/against" edges "$on_named"
"$work/asserting/against" run "$seed" "$on_calls"
if [ -n "$on_runs" ]; then
    echo "with them on: arenas of up to 16,777,216 bytes"
    "$work/asserting/against" dock "$seed" "$on_runs" 1
fi

# usage: reported NAME WHAT MODE NUMBER..   (WHAT: how the difference begins)
reported() {
    local name=$1 what=$2 status=0
    shift 2
    "$work/$name/against" "$@" >"$work/$name/out" 2>&1 || status=$?
    if [ "$status" -ne 1 ] || ! grep -q "^DIFFERENCE: $what" "$work/$name/out"; then
        echo "against: the planted fault $name was not reported (exit status $status)" >&2
        exit 1
    fi
    echo "planted fault $name: $(grep -m 1 '^DIFFERENCE' "$work/$name/out")"
}

# usage: must_report NAME SED-EXPRESSION MODE NUMBER..   (what the fault breaks is in the name)
must_report() {
    build_against "$1" "$2"
    reported "$1" '' "${@:3}"
}

# usage: must_report_ours NAME WHAT SED-EXPRESSION MODE NUMBER..   (the same of ours; WHAT: how the difference begins)
must_report_ours() {
    build_faulty_ours "$1" "$3"
    reported "$1" "$2" "${@:4}"
}

must_report no_back_of_16 's/if back_padding_end <= hole_end/if back_padding_end < hole_end/' tilings 7
must_report front_of_8 's/hole_addr_u8.wrapping_add(HoleList::min_size())/hole_addr_u8.wrapping_add(8)/' tilings 7
must_report joins_before_only 's/^            (cursor, 2)$/            (cursor, 1)/' tilings 7
must_report extends_from_17 's/if extend_by < minimum_extend/if extend_by <= minimum_extend/' tilings 7
must_report back_of_16_in_runs 's/if back_padding_end <= hole_end/if back_padding_end < hole_end/' run "$seed" 100000
# an assertion that is turned round: it does not hold where a block is freed behind a hole, and nothing else shows that
build_against assertion_turned 's/debug_assert!(self.hole < node/debug_assert!(self.hole > node/' -Cdebug-assertions=on
reported assertion_turned 'the original panics' tilings 7
# an unopened heap
must_report_ours unopened_has_no_room 'unopened: request' \
    '/raw::allocate(/a let told = if told == Err(Refusal::Unopened) { Err(Refusal::NoRoom { holes: 0 }) } else { told };' tilings 7
# the room report, at a true alignment
must_report_ours room_forgets_alignment 'room at [0-9]' \
    's/\(raw::room(.*\), align)/\1, if align.is_power_of_two() { 1 } else { align })/' tilings 7
must_report_ours room_16_less 'room at [0-9]' \
    '/raw::room(/a let told = told.map(|(largest, holes)| (largest.saturating_sub(16), holes));' tilings 7
# a resize: its new size, refusal 10, the bytes that stay, and the block that its answer names
must_report_ours resize_16_less 'resize' 's/\(raw::resize(.*\), new_size)/\1, new_size.saturating_sub(16))/' tilings 7
must_report_ours resize_never_refused 'resize refused' \
    '/raw::resize(/a let told = if told == Err(Refusal::BadStretch) { Ok((0, 0)) } else { told };' tilings 7
must_report_ours resize_changes_a_byte 'resize: a common byte' \
    '/raw::resize(/a if told.is_ok() { self.arena[(block.addr - self.words[0]) as usize] ^= 1; }' tilings 7
must_report_ours resize_names_the_old_block 'resize' 's/Block { size: new_size, \.\.block }/block/' tilings 7
# a place of three bytes, which only the larger arenas have: a grant's and the first hole's lose the third; in the row of addresses it is
# lost from the 65,537th hole on
must_report_ours grant_of_two_bytes 'grant' \
    '/raw::allocate(/a let told = told.map(|(addr, n)| (self.words[0] + ((addr - self.words[0]) & 0xffff), n));' dock "$seed" 0 1
must_report_ours first_of_two_bytes 'grant' \
    '/raw::allocate(/a if told.is_ok() && self.words[4] != !0 { self.words[4] &= 0xffff; }' dock "$seed" 0 1
must_report_ours row_of_two_bytes 'hole' \
    '/raw::list(/a for a in addrs.iter_mut().take(told.map_or(0, |t| t.0) as usize).skip(65_536) { *a -= (*a - self.words[0]) & 0xff << 16; }' \
    dock "$seed" 1 1
echo "against: no difference; every planted fault reported"
