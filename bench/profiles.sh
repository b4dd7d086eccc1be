#!/usr/bin/env bash
# Prints what `profile` takes of perf.data files, for a sample: instructions by callgrind, with the reading of its bytes and
# beside it, of all samples less the first 10; the seconds of the processor that all of them take, and those of `perf script`;
# and the peak memory.
#
#     bench/profiles.sh PERF.DATA..
#
# What the bytes take is what the same file takes in which the samples are records of a kind that isn't read. RUNS (3) is how
# often the seconds are taken: the median is printed. Wants the built program (PROFILE, crates/profile/out/profile), valgrind,
# GNU time and python3, and perf for its seconds. A file is one that `perf record --call-graph dwarf` wrote, and what it
# mapped lies where it says.

# shellcheck source-path=SCRIPTDIR source=common.sh
. "$(dirname "$0")/common.sh"

profile=${PROFILE:-$top/crates/profile/out/profile}
runs=${RUNS:-3}

# FILE FROM COUNT KIND: writes the file with its first COUNT samples alone (0: all of them), of which those are records of the
# kind that come after the first 10; 9 are samples. It prints how many samples there are.
write_samples() {
    python3 - "$@" <<'PYTHON'
import struct
import sys

path, source, most, kind = sys.argv[1], sys.argv[2], int(sys.argv[3]), int(sys.argv[4])
data = bytearray(open(source, "rb").read())
at, length = struct.unpack_from("<QQ", data, 40)
end, count = at + length, 0
while at < end and (not most or count < most):
    told, _misc, size = struct.unpack_from("<IHH", data, at)
    if told == 9:
        count += 1
        if count > 10:
            struct.pack_into("<I", data, at, kind)
    at += size
start = struct.unpack_from("<Q", data, 40)[0]
struct.pack_into("<Q", data, 48, at - start)
data[72:104] = bytes(32)
with open(path, "wb") as file:
    file.write(data[:at])
print(count)
PYTHON
}

# COMMAND..: the median of the seconds of the processor that it takes on $work/data.
seconds() {
    for _ in $(seq "$runs"); do
        env time -o "$work/time" -f '%U %S' "$@" <"$work/data" >"$work/told" 2>"$work/log" || :
        tail -1 "$work/time" | awk '{ print $1 + $2 }'
    done | sort -n | sed -n "$(((runs + 1) / 2))p"
}

echo '| Samples | Frames a sample | Lines | `profile` | perf | Instructions a sample | Beside its bytes | Peak memory |'
echo '|---|---|---|---|---|---|---|---|'
for file in "$@"; do
    python3 "$top/tools/perf_tables.py" "$file" >"$work/tables"
    samples=$(write_samples "$work/data" "$file" 0 9)
    write_samples "$work/first" "$file" 10 9 >"$work/told"
    write_samples "$work/unread" "$file" 0 8 >"$work/told"
    first=$(instructions "$profile" "$work/tables" <"$work/first")
    unread=$(instructions "$profile" "$work/tables" <"$work/unread")
    whole=$(instructions "$profile" "$work/tables" <"$work/data")
    lines=$(wc -l <"$work/told")
    frames=$(awk '{ count = $NF; sum += count * (gsub(/\+0x/, "") + 0) } END { print int(sum / '"$samples"' + 0.5) }' "$work/told")
    taken=$(seconds "$profile" "$work/tables")
    perfs=$(if command -v perf >"$work/told"; then seconds perf script --no-inline -F comm,ip -i "$file"; fi)
    memory=$(peak "$profile" "$work/tables" <"$work/data")
    more=$((samples - 10))
    echo "| $samples | $frames | $lines | $taken s | $perfs s | $(((whole - first) / more)) | $(((whole - unread) / more)) | $memory kB |"
done
