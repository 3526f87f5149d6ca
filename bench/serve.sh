#!/usr/bin/env bash
# `tgate serve` of a pack with a file of 400 MB over loopback, as a CAR and as its raw blocks one by one, and of 10,000 raw blocks of
# 64 bytes over one connection and over 10,000 connections, beside nginx that sends the same bytes as files, and sha256sum of the pack, in
# the same run, as ratios of the times, with the most memory that the program holds. The client is curl for both. With 64 lanes the small
# blocks are asked for by 32 clients at once, alone and beside 32 idle connections, where the client is wrk; and with 4 lanes a file of
# 200 MB, whose blocks the cache holds, is asked for ten times by 4 clients in all, beside hashing it once. The best of three rounds counts.
set -u
cd "$(dirname "$0")/.." || exit 1
for tool in rt sha256sum awk curl nginx /usr/bin/time; do
    command -v $tool >/dev/null 2>&1 || { echo "skipped: no $tool"; exit 0; }
done
./tgate >/dev/null 2>&1
program=$PWD/crates/tgate/out/tgate
[ -x "$program" ] || { echo "the program did not build"; exit 1; }
made=$(mktemp -d) || exit 1
trap 'rm -rf "$made"' EXIT

mkdir "$made/large" "$made/many" "$made/hot" "$made/www"
head -c 400000000 /dev/urandom >"$made/large/f"
head -c 640000 /dev/urandom | split -b 64 -a 5 -d - "$made/many/f"
large=$("$program" import "$made/large" "$made/large.pack" | head -n 1)
"$program" import "$made/many" "$made/many.pack" >/dev/null
head -c 200000000 /dev/urandom >"$made/hot/f"
hot=$("$program" import "$made/hot" "$made/hot.pack" | head -n 1)

# The raw blocks as files under their CIDs' texts, for nginx, and the list of them.
split -b 1048576 -a 4 -d "$made/large/f" "$made/part."
texts() { sha256sum "$@" | awk '{ print "01551220" $1 }' | while read -r hex; do "$program" cid --hex "$hex"; done; }
texts "$made"/part.* >"$made/large.cids"
paste "$made/large.cids" <(ls "$made"/part.*) | while read -r cid file; do mv "$file" "$made/www/$cid"; done
texts "$made"/many/* >"$made/many.cids"
paste "$made/many.cids" <(ls "$made"/many/*) | while read -r cid file; do cp "$file" "$made/www/$cid"; done
for pack in large hot; do
    ln "$made/$pack.pack" "$made/www/$pack.pack" 2>/dev/null || cp "$made/$pack.pack" "$made/www/$pack.pack"
done

front=18280
cat >"$made/nginx.conf" <<CONF
daemon off; master_process off; pid $made/nginx.pid; error_log $made/nginx.log;
events {}
http { access_log off; sendfile on; keepalive_requests 1000000; default_type application/vnd.ipld.raw;
client_body_temp_path $made/a; proxy_temp_path $made/b; fastcgi_temp_path $made/c; uwsgi_temp_path $made/d; scgi_temp_path $made/e;
server { listen 127.0.0.1:$front; root $made/www; } }
CONF
nginx -p "$made" -c "$made/nginx.conf" 2>>"$made/nginx.log" &
proxy=$!
trap 'kill $proxy 2>/dev/null; rm -rf "$made"' EXIT
sleep 1

# urls NAME FRONT BEHIND: a config of curl that fetches each CID of the list, and drops what comes
urls() { awk -v f="$2" -v b="$3" '{ print "url = \"" f $0 b "\""; print "output = /dev/null" }' "$made/$1.cids" >"$made/urls"; }

# fetch OPTIONS..: the time of one curl in ms
fetch() {
    local start
    start=$(date +%s%N)
    curl -s --max-time 120 "$@" || echo "curl failed" >&2
    echo $((($(date +%s%N) - start) / 1000000))
}

# fetch_by_four URL: the time in ms in which four clients beside one another fetch it three, three, two and two times
fetch_by_four() {
    local start times n clients=()
    for times in 2 3; do
        for ((n = 0; n < times; n++)); do printf 'url = "%s"\noutput = /dev/null\n' "$1"; done >"$made/urls.$times"
    done
    start=$(date +%s%N)
    for times in 3 3 2 2; do
        curl -s --max-time 120 -K "$made/urls.$times" &
        clients+=($!)
    done
    for n in "${clients[@]}"; do wait "$n" || echo "curl failed" >&2; done
    echo $((($(date +%s%N) - start) / 1000000))
}

# begin PACK COUNT LANES: the program serves; the most memory in KB is in `held` when it has ended
begin() {
    rm -f "$made/line"
    /usr/bin/time -f '%M' -o "$made/held" "$program" serve "$1" --port 18281 --count "$2" --lanes "$3" >"$made/line" &
    pid=$!
    while [ ! -s "$made/line" ]; do sleep 0.05; done
}

# How the fetches are made, and with how many lanes.
way=fetch lanes=1

# ours PACK COUNT OPTIONS..: the least time of three fetches from the program, and the most memory in KB
ours() {
    local pack=$1 count=$2 pid took
    shift 2
    for _ in 1 2 3; do
        begin "$pack" "$count" "$lanes"
        took=$($way "$@")
        wait "$pid"
        echo "$took $(cat "$made/held")"
    done | awk '{ if (!n++ || $1 < least) least = $1; if ($2 > most) most = $2 } END { print least, most }'
}

theirs() { for _ in 1 2 3; do $way "$@"; done | sort -n | head -n 1; }

# rate PORT FRONT BEHIND: the requests a second of 32 clients at once, which ask for the CIDs of `many` in turn for two seconds
rate() {
    FRONT=$2 BEHIND=$3 CIDS=$made/many.cids wrk -t 2 -c 32 -d 2s -s "$made/ask.lua" "http://127.0.0.1:$1/" >"$made/told"
    grep -E 'Socket errors|Non-2xx' "$made/told" >>"$made/failed"
    awk '/^Requests\/sec:/ { print int($2) }' "$made/told"
}
cat >"$made/ask.lua" <<'LUA'
local asked, last = {}, 0
init = function()
    for cid in io.lines(os.getenv("CIDS")) do
        asked[#asked + 1] = wrk.format("GET", os.getenv("FRONT") .. cid .. os.getenv("BEHIND"))
    end
end
request = function()
    last = last % #asked + 1
    return asked[last]
end
LUA

# our_rate IDLE: the best rate of three from the program with 64 lanes, beside so many idle connections, and the most memory in KB
our_rate() {
    local pid got n fd idle
    for _ in 1 2 3; do
        begin "$made/many.pack" 200 64
        idle=()
        for ((n = 0; n < $1; n++)); do
            exec {fd}<>/dev/tcp/127.0.0.1/18281
            idle+=("$fd")
        done
        got=$(rate 18281 /ipfs/ '?format=raw')
        for fd in ${idle[@]+"${idle[@]}"}; do exec {fd}>&-; done
        # The connections that are left of 200.
        for ((n = 0; n < 200; n++)); do (exec 3<>/dev/tcp/127.0.0.1/18281) 2>/dev/null || break; done
        # wrk goes away while requests are at hand, so a connection failed, which `time` tells too.
        wait "$pid"
        echo "$got $(tail -n 1 "$made/held")"
    done 2>"$made/said" | awk '{ if ($1 > best) best = $1; if ($2 > most) most = $2 } END { print best, most }'
}

show() {
    echo "$1 $2 $3" | awk -v name="$4" '{ printf "%s: tgate %d ms, nginx %d ms, speed of nginx %.2f, most memory %d KB\n", name, $1, $3, $3 / ($1 ? $1 : 1), $2 }'
}

echo "load before: $(cut -d' ' -f1-3 /proc/loadavg)"
hash=$(for _ in 1 2 3; do s=$(date +%s%N); sha256sum "$made/large.pack" >/dev/null; echo $((($(date +%s%N) - s) / 1000000)); done | sort -n | head -n 1)
read -r time held <<<"$(ours "$made/large.pack" 1 -o /dev/null "http://127.0.0.1:18281/ipfs/$large/f?format=car")"
other=$(theirs -o /dev/null "http://127.0.0.1:$front/large.pack")
show "$time" "$held" "$other" "a file of 400 MB as a CAR"
awk -v t="$time" -v h="$hash" 'BEGIN { printf "  sha256sum of the pack %d ms, tgate / sha256sum %.2f\n", h, t / h }'
urls large http://127.0.0.1:18281/ipfs/ '?format=raw'
read -r time held <<<"$(ours "$made/large.pack" 1 -K "$made/urls")"
urls large "http://127.0.0.1:$front/" ''
show "$time" "$held" "$(theirs -K "$made/urls")" "its 382 raw blocks over one connection"
awk -v t="$time" -v h="$hash" 'BEGIN { printf "  tgate / sha256sum of the pack %.2f\n", t / h }'
for close in '' 'Connection: close'; do
    count=1 name="10,000 raw blocks of 64 bytes over one connection"
    [ -n "$close" ] && count=10000 name="10,000 raw blocks of 64 bytes over 10,000 connections"
    urls many http://127.0.0.1:18281/ipfs/ '?format=raw'
    read -r time held <<<"$(ours "$made/many.pack" $count ${close:+-H "$close"} -K "$made/urls")"
    urls many "http://127.0.0.1:$front/" ''
    show "$time" "$held" "$(theirs ${close:+-H "$close"} -K "$made/urls")" "$name"
done
if command -v wrk >/dev/null 2>&1; then
    read -r alone held <<<"$(our_rate 0)"
    read -r beside held_beside <<<"$(our_rate 32)"
    other=$(for _ in 1 2 3; do rate $front / ''; done | sort -n | tail -n 1)
    echo "$alone $other $held $beside $held_beside" | awk '{
        printf "10,000 raw blocks of 64 bytes, 32 clients at once: tgate %d requests a second, nginx %d, tgate / nginx %.2f, most memory %d KB\n", $1, $2, $1 / ($2 ? $2 : 1), $3
        printf "  beside 32 idle connections: tgate %d requests a second, beside / alone %.2f, most memory %d KB\n", $4, $4 / ($1 ? $1 : 1), $5 }'
    cat "$made/failed" 2>/dev/null
else
    echo "skipped: no wrk"
fi
way=fetch_by_four lanes=4
hash=$(for _ in 1 2 3; do s=$(date +%s%N); sha256sum "$made/hot/f" >/dev/null; echo $((($(date +%s%N) - s) / 1000000)); done | sort -n | head -n 1)
read -r time held <<<"$(ours "$made/hot.pack" 4 "http://127.0.0.1:18281/ipfs/$hot/f?format=car")"
show "$time" "$held" "$(theirs "http://127.0.0.1:$front/hot.pack")" "a file of 200 MB as a CAR, ten times by 4 clients"
awk -v t="$time" -v h="$hash" 'BEGIN { printf "  sha256sum of the file, once, %d ms, tgate / sha256sum %.2f\n", h, t / h }'
echo "load after: $(cut -d' ' -f1-3 /proc/loadavg)"
