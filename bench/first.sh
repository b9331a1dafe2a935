#!/usr/bin/env bash
# Times the proved program on cookie scripts of three sizes, a million lines the largest, and shows its
# largest memory. The time has to grow with the lines, and the memory with the files.
set -eu
. "$(dirname "$0")/program.sh"

for lines in 250000 500000 1000000; do
    {
        echo "user open 0 http://a.example/"
        awk -v pairs=$((lines / 2)) 'BEGIN { for (i = 0; i < pairs; i++) print "page 0.0 cookie set k=v\npage 0.0 cookie get" }'
    } >"$folder/script"
    python3 "$here/bench/timed.py" "$program" "$here/examples/hosts" "$folder/script" "$lines" line
done
