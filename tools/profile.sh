#!/usr/bin/env bash
# Takes a profile of a command or of a process, and draws it.
#
#   profile.sh [--svg FILE] [--folded FILE] [--script FILE] [--frequency N] COMMAND [WORD]...
#   profile.sh PID [MOMENTS] [--svg FILE] [--every MILLISECONDS]
#
# Of a command: perf records it, `profile` finds the stacks of the samples, and a flame graph by names is written to FILE
# (profile.svg), as command_profile.py says. With --folded the stacks are written, too, and with --script the samples one
# after another, as `perf script` writes them.
#
# Of a process: it is stopped several times, and the stacks of all its threads are found each time. Each stack is printed by
# names with the number of times that it was seen, as flamegraph.pl, inferno and speedscope read it. It takes 10 moments, one
# each 50 milliseconds, unless other numbers are given; with --svg the same is drawn, too. No debugger is asked:
# process_profile.py stops the process for some milliseconds at each moment, and `unwind_cli fold` finds the stacks. All threads
# count, also those that wait. A first word of digits is a process: put ./ before a command that has such a name.
#
# PROFILE and UNWIND_CLI name the built programs where they are neither in the out/ of their crates nor on the PATH. A link
# to this script may lie in a folder of the PATH.
set -uo pipefail
tools=$(dirname "$(readlink -f "${BASH_SOURCE[0]}")")

# A python3 on the PATH may be a script that takes longer to start than all the rest; the system's isn't.
python=/usr/bin/python3
[ -x "$python" ] || python=python3
case ${1:-} in
    '')
        echo 'usage: profile.sh [--svg FILE] [--folded FILE] [--script FILE] [--frequency N] COMMAND [WORD]... | PID [MOMENTS] [--svg FILE] [--every MILLISECONDS]' >&2
        exit 2 ;;
    *[!0-9]*) exec "$python" -E -S "$tools/command_profile.py" "$@" ;;
    *) exec "$python" -E -S "$tools/process_profile.py" "$@" ;;
esac
