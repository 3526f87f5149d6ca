#!/usr/bin/env bash
# The store in a pack, by the program itself: a file of 400 MiB linked into a pack in chunks of 1 MiB, the pack attached, and its
# blocks got in order; each beside sha256sum and cp of the pack in the same run, as ratios of the times. The best of three rounds
# counts. Attaching alone is an export of a path that leads nowhere, and getting is what a whole export takes besides. Then the most
# memory that the program holds to attach that pack, and one of 200,000 blocks of 64 bytes with the nodes over them: what comes to a
# block of these bounds what the index takes for it.
set -u
cd "$(dirname "$0")/.." || exit 1
for tool in rt sha256sum cp awk /usr/bin/time; do
    command -v $tool >/dev/null 2>&1 || { echo "skipped: no $tool"; exit 0; }
done
./tgate >/dev/null 2>&1
program=$PWD/crates/tgate/out/tgate
[ -x "$program" ] || { echo "the program did not build"; exit 1; }
made=$(mktemp -d) || exit 1
trap 'rm -rf "$made"' EXIT

mkdir "$made/large" "$made/small"
head -c 419430400 /dev/urandom >"$made/large/f"
head -c 12800000 /dev/urandom >"$made/small/f"

# best NAME STATUS COMMAND..: the least time of three runs in ms, and the most memory in KB
best() {
    local name=$1 status=$2 got
    shift 2
    for _ in 1 2 3; do
        /usr/bin/time -f '%e %M' -o "$made/time" "$@" >"$made/out" 2>/dev/null
        got=$?
        [ "$got" -eq "$status" ] || { echo "$name: status $got" >&2; exit 1; }
        tail -n 1 "$made/time"
    done | awk -v name="$name" '{ t = $1 * 1000; if (!n++ || t < least) least = t; if ($2 > most) most = $2 } END { print name, least, most }'
}

echo "load before: $(cut -d' ' -f1-3 /proc/loadavg)"
{
    best link 0 "$program" import "$made/large" "$made/pack"
    root=$(head -n 1 "$made/out")
    best attach 9 "$program" export "$made/pack" "$root/none"
    best export 0 "$program" export "$made/pack" "$root" --scope all
    best sha256sum 0 sha256sum "$made/pack"
    best cp 0 cp "$made/pack" "$made/copy"
    rm -f "$made/copy"
    "$program" import "$made/small" "$made/places" --chunk 64 >"$made/out"
    root=$(head -n 1 "$made/out")
    best places 9 "$program" export "$made/places" "$root/none"
} | awk '
    { time[$1] = $2; held[$1] = $3 }
    function ratio(name, t) { printf "%s: %d ms, %.2f of sha256sum, %.2f of cp\n", name, t, t / time["sha256sum"], t / (time["cp"] ? time["cp"] : 1) }
    END {
        if (!("places" in time)) { print "not all was measured"; exit 1 }
        printf "sha256sum %d ms, cp %d ms\n", time["sha256sum"], time["cp"]
        ratio("file of 400 MiB linked into a pack", time["link"])
        ratio("pack attached", time["attach"])
        ratio("blocks got in order", time["export"] - time["attach"])
        printf "most memory to link %d KB, to attach %d KB, to get %d KB\n", held["link"], held["attach"], held["export"]
        printf "most memory to attach a pack of 200,000 blocks of 64 bytes: %d KB\n", held["places"]
        printf "a block of the index: at most %d bytes, with the rest of the program counted in\n", held["places"] * 1024 / 200000
    }' || exit 1
echo "load after: $(cut -d' ' -f1-3 /proc/loadavg)"
