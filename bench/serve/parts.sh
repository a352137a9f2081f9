# What the benches of serve have in common: the program, the load and the relay built in a folder of their own, and what runs there.
set -eu
top=$(dirname -- "$(readlink -f -- "${BASH_SOURCE[0]}")")/../..
program=${PROGRAM:-$top/crates/drda_gateway/out/drda_gateway}
folder=$(mktemp -d)
running=()

clear_up() {
    for job in "${running[@]}"; do kill -s TERM "$job" 2>/dev/null || true; done
    rm -rf "$folder"
}
trap clear_up EXIT
trap 'exit 130' INT
trap 'exit 143' TERM HUP

[ -x "$program" ] || { echo "${0##*/}: there is no program; ./gateway builds it" >&2; exit 1; }
command -v rustc >/dev/null || { echo "${0##*/}: rustc isn't on the PATH" >&2; exit 1; }
for name in load relay; do
    rustc -O --edition 2021 "$top/bench/serve/$name.rs" -o "$folder/$name"
done

# Waits until a job listens at a port, by the host's table, so that no session is spent on it.
wait_for() { # PORT JOB
    local wanted
    wanted=$(printf ':%04X 00000000:0000 0A' "$1")
    for _ in $(seq 100); do
        grep -q "$wanted" /proc/net/tcp && return 0
        kill -0 "$2" || break
        sleep 0.05
    done
    echo "${0##*/}: nothing listens at $1" >&2
    exit 1
}

# Starts a command that listens at a port; its number is left in `started`, and what it writes in the folder.
start() { # PORT NAME WORD..
    local port=$1 name=$2
    shift 2
    "$@" >"$folder/$name.out" &
    started=$!
    running+=("$started")
    wait_for "$port" "$started"
}

stop() { # JOB
    kill -s TERM "$1" 2>/dev/null || true
    wait "$1" 2>/dev/null || true
}

# The processor time of a job so far, in microseconds.
processor_time() { # JOB
    local fields
    read -r -a fields <"/proc/$1/stat"
    echo $(((fields[13] + fields[14]) * 1000000 / $(getconf CLK_TCK)))
}
