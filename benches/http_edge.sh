#!/usr/bin/env bash
# Times N pipelined requests over one connection, and twice as many: the work is linear in the bytes.
# Usage: benches/http_edge.sh PATH_OF_ENGINED [N]
set -eu
engined=$1
count=${2:-100000}
here=$(cd "$(dirname "$0")" && pwd)
input=$(mktemp)
trap 'rm -f "$input"' EXIT
for times in "$count" $((2 * count)); do
    awk -v n="$times" 'BEGIN { RS = "\001" } { for (i = 0; i < n; i++) printf "%s", $0 }' \
        "$here/ping.http" > "$input"
    echo "$times requests, $(stat -c %s "$input") bytes"
    ( time "$engined" --stdio < "$input" > /dev/null ) 2>&1 | grep real
done
