#!/usr/bin/env bash
# Times an act of the proved program at three sizes: cookies set and read over 60 tabs on 60 hosts of a
# table of 4,096. The time of an act must not grow with the number of acts.
set -eu
. "$(dirname "$0")/program.sh"

{
    echo "self 192.0.2.10 02:00:00:00:00:01"
    echo "gateway 02:00:00:00:00:fe"
    awk 'BEGIN { for (i = 0; i < 4096; i++) printf "host h%d.example 198.51.%d.%d\n", i, int(i / 256), i % 256 }'
} >"$folder/hosts"

for acts in 100000 400000 1600000; do
    awk -v acts="$acts" 'BEGIN {
        for (tab = 0; tab < 60; tab++) printf "user open %d http://h%d.example/\n", tab, tab * 68
        for (i = 0; i < acts / 2; i++) printf "page %d.0 cookie set k%d=%d\nnet %d.0 cookie get\n", i % 60, i % 7, i, i % 60
    }' >"$folder/script"
    python3 "$here/bench/timed.py" "$program" "$folder/hosts" "$folder/script" "$acts" act
done
