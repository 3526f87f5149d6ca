#!/usr/bin/env bash
# What fetch.sh and mirror.sh share. Whoever sources it has set `program`, `made`, a folder for what it makes, and `port`.
# shellcheck disable=SC2154

# served PACK COMMAND..: the time of a command in ms, while the pack is served to one link
served() {
    local pack=$1 begun pid
    shift
    rm -f "$made/line"
    "$program" serve "$pack" --port "$port" --count 1 >"$made/line" &
    pid=$!
    while [ ! -s "$made/line" ]; do sleep 0.05; done
    begun=$(date +%s%N)
    "$@" || echo "failed: $*" >&2
    echo $((($(date +%s%N) - begun) / 1000000))
    wait "$pid"
}

# ratio NAME STOCK: of lines with our time, our memory and the time of the stock tool, the best of each and their ratio
ratio() {
    awk -v name="$1" -v stock="$2" '
        { if (!n++ || $1 < least) least = $1; if ($2 > most) most = $2; if (n == 1 || $3 < other) other = $3 }
        END { printf "%s: tgate %d ms, %s %d ms, tgate / theirs %.2f, most memory %d KB\n", name, least, stock, other, least / other, most }'
}
