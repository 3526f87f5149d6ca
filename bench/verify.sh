#!/usr/bin/env bash
# `tgate verify` of a CAR of a file of 400 MB, and of CARs of folders with 20,000 files of 4 KiB and of 64 bytes as bundles, with repeats
# and with each block once, and of a folder with a file of 400 MB twice, each block once, beside sha256sum of the same bytes in the same
# run, as ratios of the times, with the most memory that the program holds. The best of three rounds counts.
set -u
cd "$(dirname "$0")/.." || exit 1
for tool in rt sha256sum awk /usr/bin/time; do
    command -v $tool >/dev/null 2>&1 || { echo "skipped: no $tool"; exit 0; }
done
./tgate >/dev/null 2>&1
program=$PWD/crates/tgate/out/tgate
[ -x "$program" ] || { echo "the program did not build"; exit 1; }
made=$(mktemp -d) || exit 1
trap 'rm -rf "$made"' EXIT

mkdir "$made/large" "$made/many" "$made/tiny" "$made/twins"
head -c 400000000 /dev/urandom >"$made/large/f"
cp "$made/large/f" "$made/twins/f"
cp "$made/large/f" "$made/twins/g"
head -c 81920000 /dev/urandom | split -b 4096 -a 5 -d - "$made/many/f"
head -c 1280000 /dev/urandom | split -b 64 -a 5 -d - "$made/tiny/f"

# best NAME COMMAND..: the least time of three runs over the CAR in ms, and the most memory in KB
best() {
    local name=$1
    shift
    for _ in 1 2 3; do
        /usr/bin/time -f '%e %M' -o "$made/time" "$@" <"$made/car" >/dev/null || { echo "$name failed" >&2; exit 1; }
        cat "$made/time"
    done | awk -v name="$name" '{ t = $1 * 1000; if (!n++ || t < least) least = t; if ($2 > most) most = $2 } END { print name, least, most }'
}

echo "load before: $(cut -d' ' -f1-3 /proc/loadavg)"
for row in "large y" "many y" "tiny y" "large n" "many n" "tiny n" "twins n"; do
    kind=${row% *} dups=${row#* }
    root=$("$program" import "$made/$kind" "$made/pack" | head -n 1)
    "$program" export "$made/pack" "$root" --scope all --dups "$dups" >"$made/car"
    rm -f "$made/pack"
    echo "bytes $(wc -c <"$made/car") $kind $dups"
    best verify "$program" verify "$root" --scope all --dups "$dups"
    best sha256sum sha256sum
done | awk '
    $1 == "bytes" { size = $2; kind = $3; dups = $4; next }
    $1 == "verify" { time = $2; held = $3; next }
    { name = kind == "large" ? "one file of 400 MB" : kind == "many" ? "20,000 files of 4 KiB" : kind == "tiny" ? "20,000 files of 64 bytes" : "one file of 400 MB twice"
      printf "%s, dups %s: CAR %d bytes, verify %d ms, sha256sum %d ms, verify / sha256sum %.2f, most memory %d KB\n", name, dups, size, time, $2, time / ($2 ? $2 : 1), held }'
echo "load after: $(cut -d' ' -f1-3 /proc/loadavg)"
