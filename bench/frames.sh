#!/bin/bash
# How long the views take: the proved program views each frame of a list, with both its sums, and so does a
# plain program in C, built with -O2. Prints both times and their ratio, and fails where it passes 2.
# Without a C compiler it is skipped.
#
# usage: bench/frames.sh
set -eu
if ! command -v "${CC:-cc}" > /dev/null 2>&1; then
    echo "bench/frames.sh: skipped, since there is no C compiler"
    exit 0
fi
top=$(cd "$(dirname "$0")/.." && pwd)
copy=$(mktemp -d)
trap 'rm -rf "$copy"' EXIT
mkdir "$copy/crates"
cp "$top/HANDLES" "$copy/"
for crate in ibos_kinds ibos_eth ibos_ip ibos_tcp; do
    mkdir "$copy/crates/$crate"
    for part in src specs proofs; do
        if [ -d "$top/crates/$crate/$part" ]; then
            cp -r "$top/crates/$crate/$part" "$copy/crates/$crate/"
        fi
    done
done
grep -E '^ibos_(kinds|eth|ip|tcp):' "$top/crates.txt" > "$copy/crates.txt"
echo "ibos_timed: ibos_kinds ibos_eth ibos_ip ibos_tcp" >> "$copy/crates.txt"
mkdir -p "$copy/crates/ibos_timed/src"

# Both programs read the same file of 64 frames of 1,518 bytes, and view each of them that often.
rounds=40000

cat > "$copy/crates/ibos_timed/src/main.rt" <<END
//! Views each frame of a file, over and over, and prints how many bytes they carry.
#![tactic(auto)]

use ibos_eth::EthView;
use ibos_ip::IpView;
use ibos_kinds::{Dir, Rule};
use ibos_tcp::SegView;
use std::fs::File;
use std::io;
use std::io::Read;

const FRAME: usize = 1518;
const ROUNDS: u64 = $rounds;

// How many bytes the frame carries, with its ports.
fn carried(frame: &[u8]) -> Result<u64, Rule> {
    let eth = EthView::new(frame)?;
    let ip = IpView::new(eth.payload(), Dir::In)?;
    let seg = SegView::new(ip.protocol(), ip.src(), ip.dst(), ip.payload(), Dir::In)?;
    Ok((seg.payload().len() as u64).wrapping_add(u64::from(seg.src_port())))
}

// The same of all frames.
fn all_carried(frames: &[u8]) -> u64 {
    let mut total: u64 = 0;
    for frame in frames.chunks(FRAME) {
        total = total.wrapping_add(carried(frame).unwrap_or(1));
    }
    total
}

fn main(rt: HostRuntime) -> io::Result<()> {
    let mut frames = Vec::new(rt.alloc());
    let mut file = File::open(&rt, "frames.bin")?;
    file.read_to_end(&mut frames)?;
    let mut total: u64 = 0;
    for _ in 0..ROUNDS {
        total = total.wrapping_add(all_carried(&frames));
    }
    println!(rt; "{total}")?;
    Ok(())
}
END

cat > "$copy/timed.c" <<END
#include <stdint.h>
#include <stdio.h>
#include <stddef.h>

enum { FRAME = 1518, FRAMES = 64, ROUNDS = $rounds };
static uint8_t frames[FRAME * FRAMES];

static uint32_t plain_sum(const uint8_t *p, size_t n)
{
    uint32_t sum = 0;
    for (size_t i = 0; i + 1 < n; i += 2)
        sum += (uint32_t)p[i] << 8 | p[i + 1];
    if (n % 2)
        sum += (uint32_t)p[n - 1] << 8;
    return sum;
}

static uint16_t folded(uint32_t sum)
{
    while (sum >> 16)
        sum = (sum & 0xffff) + (sum >> 16);
    return (uint16_t)sum;
}

static uint16_t word(const uint8_t *p) { return (uint16_t)(p[0] << 8 | p[1]); }

static long carried(const uint8_t *frame, size_t len)
{
    if (len < 14 || word(frame + 12) != 0x0800)
        return -1;
    const uint8_t *ip = frame + 14;
    size_t room = len - 14;
    if (room < 20 || ip[0] >> 4 != 4)
        return -5;
    size_t header = 4 * (size_t)(ip[0] & 15), total = word(ip + 2);
    if (header < 20 || header > total || total > room)
        return -5;
    if (folded(plain_sum(ip, header)) != 0xffff)
        return -6;
    if (word(ip + 6) & 0x3fff)
        return -7;
    const uint8_t *seg = ip + header;
    size_t n = total - header;
    uint32_t pseudo = plain_sum(ip + 12, 8) + ip[9];
    if (ip[9] == 6) {
        if (n < 20)
            return -10;
        size_t offset = 4 * (size_t)(seg[12] >> 4);
        if (offset < 20 || offset > n)
            return -10;
        if (folded(pseudo + (uint32_t)n + plain_sum(seg, n)) != 0xffff)
            return -11;
        return (long)(n - offset) + word(seg);
    }
    if (ip[9] == 17) {
        if (n < 8)
            return -10;
        size_t taken = word(seg + 4);
        if (taken < 8 || taken > n)
            return -10;
        if (word(seg + 6) && folded(pseudo + (uint32_t)taken + plain_sum(seg, taken)) != 0xffff)
            return -11;
        return (long)(taken - 8) + word(seg);
    }
    return -9;
}

int main(void)
{
    FILE *file = fopen("frames.bin", "rb");
    if (!file || fread(frames, 1, sizeof frames, file) != sizeof frames)
        return 1;
    uint64_t total = 0;
    for (int round = 0; round < ROUNDS; round++) {
        for (int k = 0; k < FRAMES; k++) {
            long found = carried(frames + (size_t)k * FRAME, FRAME);
            total += found < 0 ? 1 : (uint64_t)found;
        }
        /* Each round reads the frames anew. */
        __asm__ volatile("" : : "r"(frames) : "memory");
    }
    printf("%llu\n", (unsigned long long)total);
    return 0;
}
END

# Half of the frames are TCP, half UDP, with right checksums.
cat > "$copy/make.c" <<END
#include <stdint.h>
#include <stdio.h>
#include <string.h>

static unsigned sum(const uint8_t *p, unsigned n, unsigned s)
{
    for (unsigned i = 0; i < n; i++)
        s += i % 2 ? p[i] : (unsigned)p[i] << 8;
    while (s >> 16)
        s = (s & 0xffff) + (s >> 16);
    return s;
}

static void put(uint8_t *p, unsigned v) { p[0] = (uint8_t)(v >> 8); p[1] = (uint8_t)v; }

int main(void)
{
    unsigned seed = 1;
    for (int k = 0; k < 64; k++) {
        uint8_t f[1518];
        for (int i = 0; i < 1518; i++)
            f[i] = (uint8_t)((seed = seed * 1103515245 + 12345) >> 16);
        put(f + 12, 0x0800);
        uint8_t *ip = f + 14, *seg = ip + 20;
        ip[0] = 0x45;
        put(ip + 2, 1504);
        put(ip + 6, 0x4000);
        ip[9] = k % 2 ? 6 : 17;
        put(ip + 10, 0);
        put(ip + 10, 0xffff - sum(ip, 20, 0));
        unsigned at = k % 2 ? 16 : 6;
        if (k % 2)
            seg[12] = 0x50;
        else
            put(seg + 4, 1484);
        put(seg + at, 0);
        unsigned c = 0xffff - sum(seg, 1484, sum(ip + 12, 8, ip[9] + 1484));
        put(seg + at, c ? c : 0xffff);
        fwrite(f, 1, sizeof f, stdout);
    }
    return 0;
}
END

"${CC:-cc}" -O2 -o "$copy/timed" "$copy/timed.c"
"${CC:-cc}" -O2 -o "$copy/make" "$copy/make.c"
"$copy/make" > "$copy/frames.bin"
cp "$copy/frames.bin" "$copy/crates/ibos_timed/"
if ! (cd "$copy/crates/ibos_timed" && rt run) > "$copy/log" 2>&1; then
    cat "$copy/log"
    exit 1
fi

# The least time on the processor of five runs, in milliseconds.
cd "$copy"
least() {
    local best=
    local run
    for run in 1 2 3 4 5; do
        local took
        took=$( { TIMEFORMAT=%U; time "$1" > "$2"; } 2>&1 | tr -d . | sed 's/^0*//')
        if [ -z "$best" ] || [ "$took" -lt "$best" ]; then
            best=$took
        fi
    done
    echo "$best"
}
proved=$(least "$copy/crates/ibos_timed/out/ibos_timed" "$copy/proved.out")
plain=$(least "$copy/timed" "$copy/plain.out")
if ! cmp -s "$copy/proved.out" "$copy/plain.out"; then
    echo "bench/frames.sh: the programs print other numbers" >&2
    exit 1
fi
frames=$((rounds * 64))
echo "bench/frames.sh: $frames frames of 1,518 bytes: proved $proved ms, plain C $plain ms"
if [ "$proved" -gt $((2 * plain)) ]; then
    echo "bench/frames.sh: the proved program takes more than twice as long" >&2
    exit 1
fi
