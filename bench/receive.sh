#!/usr/bin/env bash
# Times a frame on its way in at three sizes, 100,000 frames the largest: ten buffers are posted and rung,
# ten frames of 114 bytes come, a bell delivers them, and the page is done with each. The time of a frame must
# not grow with their number. Then all 2,048 instances are opened, whose memory is some 100 MiB at most.
set -eu
. "$(dirname "$0")/program.sh"

# A UDP frame without a checksum from a.example, port 80, to flow 0 of instance 0.0.
frame=0200000000010200000000fe0800450000640001400040114e49c6336401c000020a0050800000500000
frame=$frame$(printf '61%.0s' $(seq 72))

for frames in 25000 50000 100000; do
    awk -v frames="$frames" -v frame="$frame" 'BEGIN {
        print "user open 0 http://a.example/\nnet 0.0 flow udp"
        print "dev write 0x2800 0x100000\ndev write 0x2808 0x400\ndev write 0x0100 0x04008002"
        for (round = 0; round < frames / 10; round++) {
            for (i = 0; i < 10; i++) printf "dev rx %d %d %d\n", (10 * round + i) % 64, i, round
            printf "dev write 0x2818 0x%x\n", (10 * round + 10) % 64
            for (i = 0; i < 10; i++) print "wire in " frame
            print "dev bell rx"
            for (i = 0; i < 10; i++) print "net 0.0 done"
        } }' >"$folder/script"
    python3 "$here/bench/timed.py" "$program" "$here/examples/hosts" "$folder/script" "$frames" frame
done

awk 'BEGIN { for (tab = 0; tab < 64; tab++) for (i = 0; i < 32; i++)
    printf "user open %d http://a.example/\nnet %d.%d flow udp\nuser close %d\n", tab, tab, i, tab }' >"$folder/script"
python3 "$here/bench/timed.py" "$program" "$here/examples/hosts" "$folder/script" 2048 instance
