#!/usr/bin/env bash
# Says where the frame table of a file doesn't say what its machine code does.
#
#   audit.sh FILE.. [--all | --counts] [--code] [--parts N]
#
# FILE is an ELF file of x86-64. claimed_facts.py follows its code, `unwind_cli audit` compares the table with what is known
# at each instruction, and audit.py prints a line for each place where they differ, by names, and last how much of the file is
# in reach. With --all also those whose rows are of another kind, with --counts the last line alone, with --code also the
# instructions of each place (docs/AUDITS.md). --parts N follows the code of a large file in N parts, which takes less memory.
# UNWIND_CLI names the built program where it is neither crates/unwind_cli/out/unwind_cli nor on the PATH. A link to this
# script may lie in a folder of the PATH.
set -uo pipefail
tools=$(dirname "$(readlink -f "${BASH_SOURCE[0]}")")
if [ -z "${UNWIND_CLI:-}" ]; then
    UNWIND_CLI=$(readlink -f "$tools/..")/crates/unwind_cli/out/unwind_cli
    [ -x "$UNWIND_CLI" ] || UNWIND_CLI=$(type -P unwind_cli || echo "$UNWIND_CLI")
fi
export UNWIND_CLI

# A python3 on the PATH may be a script that takes longer to start than all the rest; the system's isn't.
python=/usr/bin/python3
[ -x "$python" ] || python=python3
exec "$python" -E -S "$tools/audit.py" "$@"
