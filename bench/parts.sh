#!/usr/bin/env bash
# The name hash over 1 MB of bytes beside a copy of the same memory, in MB/s and as a ratio; and the scan of protobuf
# texts of 12,500 to 50,000 fields, whose speed stays the same as the text grows; DAG-PB nodes of 1,024 links read without
# memory; DAG-PB nodes and UnixFS data decoded and encoded, beside a copy of the same bytes, and the most memory that a
# message of a million blocksizes takes; and the reader of HTTP bodies over 256 MB beside a copy of the same memory. What
# the commands do with CARs and packs is in verify.sh, stores.sh, import.sh and export.sh.
set -u
cd "$(dirname "$0")/.." || exit 1
command -v rt >/dev/null 2>&1 || { echo "skipped: no rt"; exit 0; }
program=$PWD/crates/tg_bench/out/tg_bench
(cd crates/tg_bench && rt run) </dev/null >/dev/null 2>&1
[ -x "$program" ] || { echo "tg_bench did not build"; exit 1; }
"$program" name-hash | awk '
    /^name hash/ { hash = $3 }
    /^copy/ { copy = $2 }
    { print }
    END { printf "name hash / copy of the memory: %.2f of its speed\n", hash / copy }'
"$program" table
"$program" node
{ "$program" dagpb; "$program" unixfs; } | awk '
    { print; split($0, line, ": "); split(line[2], word, " ") }
    word[1] == "decode" { decode = word[2] }
    word[1] == "encode" { encode = word[2] }
    word[1] == "copy" { printf "%s, decoded, encoded / copied: %.3f, %.3f of its speed\n", line[1], decode / word[2], encode / word[2] }'
"$program" body | awk '
    /^body of a length/ { stated = $5 }
    /^body in chunks/ { chunked = $4 }
    /^copy/ { copy = $2 }
    { print }
    END { printf "body of a length, in chunks / copy of the memory: %.2f, %.2f of its speed\n", stated / copy, chunked / copy }'
