#!/usr/bin/env bash
# Reads captures that the field's tools write, and compares the frames with those that the tools list. It
# needs tcpdump, and text2pcap and editcap (Debian: tcpdump, tshark), and does nothing where one is missing.
# The tools write the byte order of their machine alone; captures of the other order are those of the
# examples, which tcpdump must list as the program does.
set -eu
for tool in tcpdump text2pcap editcap; do
    if ! command -v "$tool" >/dev/null; then
        echo "captures: $tool is missing, so nothing is compared"
        exit 0
    fi
done
. "$(dirname "$0")/program.sh"
cd "$folder"

# Forty UDP frames from a.example, port 80, to flow 0 of instance 0.0, of 60 to 1,514 bytes.
python3 - >dump <<'END'
import struct


def frame(size, number):
    payload = bytes((number + i) % 256 for i in range(size - 42))
    segment = struct.pack(">HHHH", 80, 32768, 8 + len(payload), 0) + payload
    header = struct.pack(">BBHHHBBH", 0x45, 0, 20 + len(segment), number, 0x4000, 64, 17, 0) + bytes([198, 51, 100, 1, 192, 0, 2, 10])
    total = sum(struct.unpack(">10H", header))
    while total >> 16:
        total = (total & 0xFFFF) + (total >> 16)
    header = header[:10] + struct.pack(">H", total ^ 0xFFFF) + header[12:]
    return bytes.fromhex("0200000000010200000000fe0800") + header + segment


for number in range(40):
    whole = frame(60 + 1454 * number // 39, number)
    for place in range(0, len(whole), 16):
        print(f"{place:06x} {whole[place:place + 16].hex(' ')}")
    print()
END

# As text2pcap writes it, with times in nanoseconds, written again by tcpdump, and with the first 200 bytes of
# each frame alone: those are shorter than their datagram says, so they are dropped.
text2pcap -F pcap dump whole.pcap >log 2>&1 || text2pcap dump whole.pcap >log 2>&1
editcap -F nsecpcap whole.pcap nanoseconds.pcap
tcpdump -r whole.pcap -w again.pcap 2>>log
editcap -F pcap -s 200 whole.pcap short.pcap

awk 'BEGIN {
    print "user open 0 http://a.example/\nnet 0.0 flow udp"
    print "dev write 0x2800 0x100000\ndev write 0x2808 0x400\ndev write 0x0100 0x04008002"
    for (i = 0; i < 40; i++) {
        printf "dev rx %d %d %d\ndev write 0x2818 0x%x\n", i % 64, i % 20, i / 20, (i + 1) % 64
        print "wire next\ndev bell rx\nnet 0.0 done"
    } }' >script

# The bytes of the frames that tcpdump lists, one frame a line.
listed() {
    tcpdump -n -t -xx -r "$1" 2>>log | awk '
        /^\t0x/ { sub(/^\t0x[0-9a-f]*: */, ""); gsub(/ /, ""); line = line $0; next }
        { if (line != "") print line; line = "" }
        END { if (line != "") print line }'
}

for name in whole nanoseconds again; do
    "$program" run "$here/examples/hosts" script "$name.pcap" | awk '/ 0\.0 frame 0 / { print $5 }' >told
    listed "$name.pcap" >tool
    cmp told tool
    echo "$name.pcap: $(wc -l <told) frames, as tcpdump lists them"
done
short=$("$program" run "$here/examples/hosts" script short.pcap | grep -c 'frame 0\|log drop F5')
[ "$short" = 40 ]
echo "short.pcap: $short frames, of which those that are cut are dropped"

# What the tools write by themselves is another format, which is refused.
editcap -F pcapng whole.pcap other.pcapng
"$program" run "$here/examples/hosts" script other.pcapng && exit 1
for name in big_microseconds big_nanoseconds little_nanoseconds; do
    listed "$here/examples/captures/$name.capture" >one
    listed "$here/examples/captures/little_microseconds.capture" >other
    cmp one other
    echo "$name.capture: $(wc -l <one) frames, as tcpdump lists them"
done
