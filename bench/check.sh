#!/usr/bin/env bash
# Ratios of `tgate check` against the stock tools, in one run: sha256sum and cp on the same file of 2,097,152 bytes. Each
# command runs 30 times, the commands in turn, and the best time counts. It also prints peak memory.
set -u
cd "$(dirname "$0")/.." || exit 1
for tool in sha256sum cp python3; do
    command -v $tool >/dev/null 2>&1 || { echo "skipped: no $tool"; exit 0; }
done
made=$(mktemp -d) || exit 1
trap 'rm -rf "$made"' EXIT
head -c 2097152 /dev/urandom >"$made/block"
cid=$(./tgate cid --hex="01551220$(sha256sum "$made/block" | cut -c1-64)") || exit 1
./tgate check "$cid" <"$made/block" >"$made/copy" || exit 1
cmp "$made/copy" "$made/block" || exit 1

python3 - "$PWD/crates/tgate/out/tgate" "$cid" "$made" <<'PY'
import subprocess, sys, time

program, cid, made = sys.argv[1:]
block, copy = made + "/block", made + "/copy"
empty = "bafkreihdwdcefgh4dqkjv67uzcmw7ojee6xedzdetojuzjevtenxquvyku"


def timed(words, name):
    with open(name, "rb") as read, open(copy, "wb") as write:
        start = time.perf_counter()
        subprocess.run(words, stdin=read, stdout=write, check=True)
        return time.perf_counter() - start


commands = {
    "tgate check": ([program, "check", cid], block),
    "sha256sum": (["sha256sum"], block),
    "cp": (["cp", block, copy], block),
    "tgate check, no bytes": ([program, "check", empty], "/dev/null"),
}
best = {name: min(timed(*command) for _ in range(3)) for name, command in commands.items()}
for _ in range(30):
    for name, command in commands.items():
        best[name] = min(best[name], timed(*command))
for name, seconds in best.items():
    print(f"{name}: {seconds * 1000:.2f} ms")
print(f"tgate check / sha256sum: {best['tgate check'] / best['sha256sum']:.2f}")
print(f"tgate check / cp: {best['tgate check'] / best['cp']:.2f}")


def peak(words, bytes_read):
    """The most memory that the program has held, asked when all of the block but its last byte has been read."""
    run = subprocess.Popen(words, stdin=subprocess.PIPE, stdout=subprocess.DEVNULL)
    run.stdin.write(bytes_read[:-1])
    run.stdin.flush()
    time.sleep(0.5)
    with open(f"/proc/{run.pid}/status") as status:
        held = [line.split()[1] for line in status if line.startswith("VmHWM")][0]
    run.stdin.write(bytes_read[-1:])
    run.stdin.close()
    run.wait()
    return int(held)


with open(block, "rb") as read:
    print(f"peak memory of tgate check: {peak([program, 'check', cid], read.read())} KB, of which the block is 2048 KB")
PY
