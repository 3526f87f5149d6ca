#!/usr/bin/env bash
# `tgate fetch` of a file of 400 MB, and of 20,000 files of 4 KiB as one tree, from our own gateway over loopback, beside curl of the same
# CAR piped into sha256sum, in the same run, as ratios of the times, with the most memory that the program holds. The best of three rounds
# counts.
set -u
cd "$(dirname "$0")/.." || exit 1
for tool in rt sha256sum awk curl /usr/bin/time; do
    command -v $tool >/dev/null 2>&1 || { echo "skipped: no $tool"; exit 0; }
done
./tgate >/dev/null 2>&1
program=$PWD/crates/tgate/out/tgate
[ -x "$program" ] || { echo "the program did not build"; exit 1; }
made=$(mktemp -d) || exit 1
trap 'rm -rf "$made"' EXIT

mkdir "$made/large" "$made/many"
head -c 400000000 /dev/urandom >"$made/large/f"
head -c 81920000 /dev/urandom | split -b 4096 -a 5 -d - "$made/many/f"
port=18285

# shellcheck source=bench/served.sh disable=SC1091
. bench/served.sh

ours() { /usr/bin/time -f '%M' -o "$made/held" "$program" fetch "127.0.0.1:$port" "$@" >"$made/out"; }

theirs() { curl -s --max-time 120 "http://127.0.0.1:$port/ipfs/$1" | sha256sum >/dev/null; }

# compare NAME PACK URL WORDS..: ours and curl by turns, three times
compare() {
    local name=$1 pack=$2 url=$3
    shift 3
    for _ in 1 2 3; do
        echo "$(served "$pack" ours "$@") $(cat "$made/held") $(served "$pack" theirs "$url")"
    done | ratio "$name" "curl | sha256sum"
}

echo "load before: $(cut -d' ' -f1-3 /proc/loadavg)"
root=$("$program" import "$made/large" "$made/large.pack" | head -n 1)
compare "a file of 400 MB" "$made/large.pack" "$root/f?format=car&dag-scope=entity" "$root/f"
cmp -s "$made/out" "$made/large/f" || echo "other bytes than the file's"
root=$("$program" import "$made/many" "$made/many.pack" | head -n 1)
compare "20,000 files of 4 KiB as one tree" "$made/many.pack" "$root?format=car" "$root" --scope all
echo "load after: $(cut -d' ' -f1-3 /proc/loadavg)"
