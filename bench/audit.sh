#!/usr/bin/env bash
# `tgate audit` of 2,000 files beside sha256sum of as many bytes as the audit hashes in all, in the same run, as a ratio of the times,
# with the most memory that the program holds. The best of three rounds counts.
set -u
cd "$(dirname "$0")/.." || exit 1
for tool in rt sha256sum awk /usr/bin/time; do
    command -v $tool >/dev/null 2>&1 || { echo "skipped: no $tool"; exit 0; }
done
./tgate >/dev/null 2>&1
program=$PWD/crates/tgate/out/tgate
[ -x "$program" ] || { echo "the program did not build"; exit 1; }
made=$(mktemp -d) || exit 1
trap 'rm -rf "$made"' EXIT

# What is hashed: the folder's bytes as blocks when they are imported and when the pack is attached; the bundle's blocks by the store
# and by the client; its answer by the audit, once as it is expected and once as it comes. The other queries add a little.
folder=74805721
hashed=$((6 * folder))
head -c $hashed /dev/zero >"$made/bytes"

echo "load before: $(cut -d' ' -f1-3 /proc/loadavg)"
for _ in 1 2 3; do
    begun=$(date +%s%N)
    /usr/bin/time -f '%M' -o "$made/held" "$program" audit --seed 7 --files 2000 >"$made/out" || echo "failed" >&2
    ours=$((($(date +%s%N) - begun) / 1000000))
    begun=$(date +%s%N)
    sha256sum "$made/bytes" >/dev/null
    echo "$ours $(($(($(date +%s%N) - begun)) / 1000000)) $(cat "$made/held")"
done | awk -v folder=$folder '
    { if (!n++ || $1 < least) least = $1; if (n == 1 || $2 < other) other = $2; if ($3 > most) most = $3 }
    END { printf "audit of %d bytes in 2,002 files: tgate %d ms, sha256sum of six times as much %d ms, tgate / sha256sum %.2f, most memory %d KB, the folder twice %d KB\n", folder, least, other, least / other, most, 2 * folder / 1024 }'
echo "load after: $(cut -d' ' -f1-3 /proc/loadavg)"
