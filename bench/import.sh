#!/usr/bin/env bash
# `tgate import` of a folder with 2,000 files of 32 KiB, and of one with a file of 1 GB, beside sha256sum over the same bytes in the
# same run, as ratios of the times, with the most memory that the program holds. The best of three rounds counts.
set -u
cd "$(dirname "$0")/.." || exit 1
for tool in rt sha256sum awk xargs find /usr/bin/time; do
    command -v $tool >/dev/null 2>&1 || { echo "skipped: no $tool"; exit 0; }
done
./tgate >/dev/null 2>&1
program=$PWD/crates/tgate/out/tgate
[ -x "$program" ] || { echo "the program did not build"; exit 1; }
made=$(mktemp -d) || exit 1
trap 'rm -rf "$made"' EXIT

mkdir "$made/many" "$made/large"
head -c 65536000 /dev/urandom | split -b 32768 -a 4 -d - "$made/many/f"
head -c 1000000000 /dev/urandom >"$made/large/f"

# best NAME COMMAND..: the least time of three runs in ms, and the most memory in KB
best() {
    local name=$1
    shift
    for _ in 1 2 3; do
        /usr/bin/time -f '%e %M' -o "$made/time" "$@" >"$made/out" || { echo "$name failed" >&2; exit 1; }
        cat "$made/time"
    done | awk -v name="$name" '{ t = $1 * 1000; if (!n++ || t < least) least = t; if ($2 > most) most = $2 } END { print name, least, most }'
}

echo "load before: $(cut -d' ' -f1-3 /proc/loadavg)"
for kind in many large; do
    best import "$program" import "$made/$kind" "$made/pack"
    tail -n 1 "$made/out" >&2
    best sha256sum sh -c "find '$made/$kind' -type f -print0 | xargs -0 sha256sum"
done | awk '
    $1 == "import" { time = $2; held = $3; next }
    { name = n++ ? "one file of 1 GB" : "2,000 files of 32 KiB"
      printf "%s: import %d ms, sha256sum %d ms, import / sha256sum %.2f, most memory %d KB\n", name, time, $2, time / $2, held }'
echo "load after: $(cut -d' ' -f1-3 /proc/loadavg)"
