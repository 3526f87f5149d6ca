#!/usr/bin/env bash
# `tgate swarm` of a file of 400 MB from 1, 2 and 4 gateways of ours over loopback, beside curl of the same CAR from one of them, piped into
# sha256sum, in the same run, as ratios of the times, with the most memory that the program holds; the best of three rounds counts. And once a
# file of 64 MiB from 4 gateways behind nginx, which gives each connection 2 MiB a second, beside one of these.
set -u
cd "$(dirname "$0")/.." || exit 1
for tool in rt sha256sum awk curl /usr/bin/time; do
    command -v $tool >/dev/null 2>&1 || { echo "skipped: no $tool"; exit 0; }
done
./tgate >/dev/null 2>&1
program=$PWD/crates/tgate/out/tgate
[ -x "$program" ] || { echo "the program did not build"; exit 1; }
made=$(mktemp -d) || exit 1
pids=()
trap 'kill "${pids[@]}" 2>/dev/null; rm -rf "$made"' EXIT
port=18290

# gateways PACK: four gateways of this pack, at the ports behind `port`; those before are ended
gateways() {
    local number
    kill "${pids[@]}" 2>/dev/null && wait "${pids[@]}" 2>/dev/null
    pids=()
    for number in 1 2 3 4; do
        rm -f "$made/line"
        "$program" serve "$1" --port $((port + number)) --count 100000 >"$made/line" &
        pids+=("$!")
        while [ ! -s "$made/line" ]; do sleep 0.05; done
    done
}

# file_of PACK SIZE: a file of so many bytes is imported into the pack; its root
file_of() {
    local root
    rm -rf "$made/folder" && mkdir "$made/folder"
    head -c "$2" /dev/urandom >"$made/folder/f"
    root=$("$program" import "$made/folder" "$1" | head -n 1)
    "$program" export "$1" "$root" --scope block | "$program" verify "$root" --scope block | "$program" node "$root" | sed -n 's/^link \([a-z2-7]*\) .*$/\1/p'
}

# timed COMMAND..: its time in ms
timed() {
    local begun
    begun=$(date +%s%N)
    "$@" || echo "failed: $*" >&2
    echo $((($(date +%s%N) - begun) / 1000000))
}

# ours FRONT COUNT ROOT: a swarm of so many peers, at the ports behind FRONT
ours() {
    local front=$1 root=$3 addrs=() number
    for number in $(seq 1 "$2"); do addrs+=("127.0.0.1:$((front + number))"); done
    /usr/bin/time -f '%M' -o "$made/held" "$program" swarm "$root" "${addrs[@]}" >"${to:-/dev/null}"
}

theirs() { curl -s --max-time 120 "http://127.0.0.1:$((port + 1))/ipfs/$1?format=car" | sha256sum >/dev/null; }

# shellcheck source=bench/served.sh disable=SC1091
. bench/served.sh

echo "load before: $(cut -d' ' -f1-3 /proc/loadavg)"
root=$(file_of "$made/large" 400000000)
gateways "$made/large"
for count in 1 2 4; do
    for _ in 1 2 3; do
        echo "$(timed ours "$port" "$count" "$root") $(cat "$made/held") $(timed theirs "$root")"
    done | ratio "a file of 400 MB from $count" "curl | sha256sum"
    to=$made/got ours "$port" "$count" "$root"
    cmp -s "$made/got" "$made/folder/f" || echo "other bytes than the file's"
done

if command -v nginx >/dev/null 2>&1; then
    root=$(file_of "$made/small" 67108864)
        gateways "$made/small"
    front=$((port + 10))
    {
        echo "daemon off; master_process off; pid $made/nginx.pid; error_log $made/nginx.log; events {}"
        echo "http { access_log off; client_body_temp_path $made/a; proxy_temp_path $made/b; fastcgi_temp_path $made/c;"
        echo "uwsgi_temp_path $made/d; scgi_temp_path $made/e; proxy_http_version 1.1; limit_rate 2m;"
        for number in 1 2 3 4; do
            echo "server { listen 127.0.0.1:$((front + number)); location / { proxy_pass http://127.0.0.1:$((port + number)); } }"
        done
        echo "}"
    } >"$made/nginx.conf"
    nginx -p "$made" -c "$made/nginx.conf" 2>>"$made/nginx.log" &
    pids+=("$!")
    while [ ! -s "$made/nginx.pid" ]; do sleep 0.05; done
    echo "$(timed ours "$front" 4 "$root") $(cat "$made/held") $(timed ours "$front" 1 "$root")" |
        ratio "a file of 64 MiB from 4 that give 2 MiB a second each" "from one of them"
    to=$made/got ours "$front" 4 "$root"
    cmp -s "$made/got" "$made/folder/f" || echo "other bytes than the file's"
else
    echo "skipped: no nginx"
fi
echo "load after: $(cut -d' ' -f1-3 /proc/loadavg)"
