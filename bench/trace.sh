#!/usr/bin/env bash
# Times `trace` against `cat` on the same captures, in one run, and prints the times and their ratio. Each time is the best
# of several, without that of an empty capture: a program takes some milliseconds to start. `cat` gets the capture 16 times,
# since it takes hardly longer than that for one.
set -eu
cd "$(dirname "$0")/.."
tries=${1:-7}
./gateway trace </dev/null >/dev/null # builds the program, if need be; an empty capture is whole
program=crates/drda_gateway/out/drda_gateway
folder=$(mktemp -d)
trap 'rm -rf "$folder"' EXIT

excsat=000AD001000100041041
excsatrd=000AD003000100041443

# So many MiB of a capture: the bytes of one side, which are this DSS over and over, in lines of so many bytes each.
lines() { # MARK DSS MIB BYTES
    local bytes=$4 size=$(($3 * 1048576))
    # a byte is two digits, and a line has three characters more
    awk -v dss="$2" -v count=$((size / (2 * bytes + 3) * bytes / 10)) 'BEGIN { for (i = 0; i < count; i++) printf dss }' \
        | fold -w $((bytes * 2)) | sed "s/^/$1 /"
    echo
}

# So many chains of EXCSAT, each with its reply.
answered() { # CHAINS
    awk -v chains="$1" -v lines="> $excsat\n< $excsatrd" 'BEGIN { for (i = 0; i < chains; i++) print lines }'
}

# One chain of 4,096 commands, and so many replies to its last one.
replies() { # REPLIES
    awk 'BEGIN { for (i = 1; i < 4096; i++) printf "> 000AD041%04X00041041\n", i; print "> 000AD001100000041041" }'
    awk -v replies="$1" 'BEGIN { for (i = 1; i < replies; i++) print "< 000AD043100000041443"; print "< 000AD003100000041443" }'
}

# The least time of a command over a file, in microseconds.
best() {
    local file=$1 least=0 start spent
    shift
    for _ in $(seq "$tries"); do
        start=$(date +%s%N)
        "$@" <"$file" >/dev/null || true
        spent=$((($(date +%s%N) - start) / 1000))
        if [ "$least" -eq 0 ] || [ "$spent" -lt "$least" ]; then least=$spent; fi
    done
    echo "$least"
}

row() { # NAME
    local file=$folder/capture bytes traced copied
    bytes=$(stat -c %s "$file")
    traced=$(($(best "$file" "$program" trace) - trace_start))
    # shellcheck disable=SC2046 # a word for each copy
    copied=$((($(best /dev/null cat $(yes "$file" | head -n 16)) - cat_start) / 16))
    awk -v n="$1" -v b="$bytes" -v p="$traced" -v c="$copied" \
        'BEGIN { printf "%-28s %9d bytes  trace %8.1f ms  cat %6.2f ms  ratio %6.1f  %5.2f ns a byte\n", n, b, p / 1000, c / 1000, p / c, p * 1000 / b }'
}

: >"$folder/capture"
trace_start=$(best "$folder/capture" "$program" trace)
cat_start=$(best /dev/null cat "$folder/capture")
for mark in '>' '<'; do
    if [ "$mark" = '>' ]; then dss=$excsat; else dss=$excsatrd; fi
    for mib in 4 8 16; do
        lines "$mark" "$dss" "$mib" 1 >"$folder/capture"
        row "$mark, lines of 1 byte"
    done
    for bytes in 100 100000; do
        lines "$mark" "$dss" 16 "$bytes" >"$folder/capture"
        row "$mark, lines of $bytes bytes"
    done
done
for chains in 80000 320000; do
    answered "$chains" >"$folder/capture"
    row "$chains answered chains"
done
for replies in 80000 320000; do
    replies "$replies" >"$folder/capture"
    row "$replies replies to 4096"
done
