#!/usr/bin/env bash
# Measures the C library beside libunwind and libgcc: instructions (callgrind) of a sample of some 30 frames, and of a
# frame more.
#
#     bench/embedding.sh
#
# Wants valgrind, make, gcc, libunwind's header and library (Debian's libunwind-dev; LIBUNWIND_CFLAGS and LIBUNWIND_LIBS
# where they lie elsewhere), and the archive, as `make` makes it at the top. A number is the difference of two numbers of
# walks of one stack, so that the start of the process and the opening of the session aren't in it.

# shellcheck source-path=SCRIPTDIR source=common.sh
. "$(dirname "$0")/common.sh"

make -s -C "$top/examples/embedding" out/measure ${LIBUNWIND_CFLAGS:+"LIBUNWIND_CFLAGS=$LIBUNWIND_CFLAGS"} \
    ${LIBUNWIND_LIBS:+"LIBUNWIND_LIBS=$LIBUNWIND_LIBS"}
measure=$top/examples/embedding/out/measure

# HOW DEPTH: the instructions of a walk; the number of its frames is left in $work/told.
a_walk() {
    local few many
    few=$(instructions "$measure" "$1" 100 "$2")
    many=$(instructions "$measure" "$1" 600 "$2")
    echo "$(((many - few) / 500))"
}

printf '%-14s %8s %14s %8s %14s %12s\n' by frames instructions frames instructions 'a frame more'
for how in session unw_step unw_backtrace libgcc walk deliver raise; do
    short=$(a_walk "$how" 21)
    few=$(cat "$work/told")
    long=$(a_walk "$how" 221)
    many=$(cat "$work/told")
    [ "$how" = raise ] && { few=30 many=230; } # it tells no number; the stack is the same
    printf '%-14s %8d %14d %8d %14d %12d\n' "$how" "$few" "$short" "$many" "$long" "$(((long - short) / (many - few)))"
done

base=$(instructions "$measure" none 1 21)
printf 'opening a session: %d instructions\n' "$(($(instructions "$measure" session 0 21) - base))"

# The allocations of no sample and of a thousand, each with the opening of the session.
allocations() { valgrind --log-file="$work/log" "$measure" session "$1" 21 >"$work/told" && sed -n 's/.*heap usage: \([0-9,]*\) allocs.*/\1/p' "$work/log"; }
printf 'allocations of 1 sample and of 1,000, each with the session: %s, %s\n' "$(allocations 1)" "$(allocations 1000)"
