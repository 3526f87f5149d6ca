#!/usr/bin/env bash
# `tgate export` from a pack of a file of 400 MB, and from one of a folder with 20,000 files of 64 bytes, with repeats and with each
# block once, beside sha256sum of the pack and cp of it in the same run, as ratios of the times, with the most memory that the program
# holds. The best of three rounds counts.
set -u
cd "$(dirname "$0")/.." || exit 1
for tool in rt sha256sum cp awk /usr/bin/time; do
    command -v $tool >/dev/null 2>&1 || { echo "skipped: no $tool"; exit 0; }
done
./tgate >/dev/null 2>&1
program=$PWD/crates/tgate/out/tgate
[ -x "$program" ] || { echo "the program did not build"; exit 1; }
made=$(mktemp -d) || exit 1
trap 'rm -rf "$made"' EXIT

mkdir "$made/many" "$made/large"
head -c 1280000 /dev/urandom | split -b 64 -a 5 -d - "$made/many/f"
head -c 400000000 /dev/urandom >"$made/large/f"

# best NAME COMMAND..: the least time of three runs in ms, and the most memory in KB
best() {
    local name=$1
    shift
    for _ in 1 2 3; do
        /usr/bin/time -f '%e %M' -o "$made/time" "$@" >"$made/out" || { echo "$name failed" >&2; exit 1; }
        cat "$made/time"
    done | awk -v name="$name" '{ t = $1 * 1000; if (!n++ || t < least) least = t; if ($2 > most) most = $2 } END { print name, least, most }'
}

echo "load before: $(cut -d' ' -f1-3 /proc/loadavg)"
for row in "large y" "many y" "large n" "many n"; do
    kind=${row% *} dups=${row#* }
    rm -f "$made/pack"
    root=$("$program" import "$made/$kind" "$made/pack" | head -n 1)
    best export "$program" export "$made/pack" "$root" --scope all --dups "$dups"
    echo "bytes $(wc -c <"$made/out") $(wc -c <"$made/pack") $kind $dups"
    best sha256sum sha256sum "$made/pack"
    best cp cp "$made/pack" "$made/copy"
done | awk '
    $1 == "export" { time = $2; held = $3; next }
    $1 == "bytes" { out = $2; pack = $3; kind = $4; dups = $5; next }
    $1 == "sha256sum" { hash = $2; next }
    { name = (kind == "large" ? "one file of 400 MB" : "20,000 files of 64 bytes") ", dups " dups
      printf "%s: pack %d bytes, CAR %d bytes, export %d ms, sha256sum %d ms, cp %d ms\n", name, pack, out, time, hash, $2
      printf "%s: export / sha256sum %.2f, export / cp %.2f, most memory %d KB\n", name, time / hash, time / ($2 ? $2 : 1), held }'
echo "load after: $(cut -d' ' -f1-3 /proc/loadavg)"
