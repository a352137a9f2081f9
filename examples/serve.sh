#!/usr/bin/env bash
# Runs a gateway before one small member for two sessions: each application inserts a row and commits it, and compares every byte that
# it is answered. Then it shows what the gateway and the member tell. Nothing stays running.
#
# Usage: examples/serve.sh [PORT]     (PORT for the gateway, the next one for the member; PROGRAM in the environment: a built program)
set -u
top=$(dirname -- "$(readlink -f -- "$0")")/..
port=${1:-4470}
program=${PROGRAM:-$top/gateway}
jobs=()
folder=$(mktemp -d)

end_jobs() {
    for job in "${jobs[@]}"; do kill -s TERM "$job" 2>/dev/null; done
    rm -rf "$folder"
}
trap end_jobs EXIT
trap 'exit 130' INT
trap 'exit 143' TERM HUP

# Waits until something listens at a port, by the host's table, so that no session is spent on it.
wait_for() { # PORT JOB
    local wanted
    wanted=$(printf ':%04X 00000000:0000 0A' "$1")
    for _ in $(seq 100); do
        grep -q "$wanted" /proc/net/tcp && return 0
        kill -0 "$2" 2>/dev/null || break
        sleep 0.1
    done
    echo "serve.sh: nothing listens at 127.0.0.1:$1" >&2
    exit 1
}

# The program is built here where it is older than its sources. Without words it answers with its usage.
"$program" >/dev/null
[ $? -ne 70 ] || exit 70

"$program" member --listen "127.0.0.1:$((port + 1))" --sessions 1 --workers 1 ALICE:SECRET >"$folder/member" &
member=$!
jobs+=("$member")
wait_for $((port + 1)) "$member"
"$program" serve --listen "127.0.0.1:$port" --rdb SAMPLE --sessions 2 --workers 1 --cap 1 "127.0.0.1:$((port + 1))=1" \
    >"$folder/gateway" &
gateway=$!
jobs+=("$gateway")
wait_for "$port" "$gateway"

failed=0
for key in 1 2; do
    python3 -B "$top/examples/drda_client.py" "$port" "$key" "TEXT $key" || failed=1
done

# The gateway ends with its second session, and closes its one transport, with which the member's one session ends.
wait "$gateway" || failed=1
wait "$member" || failed=1
jobs=()
cat "$folder/gateway" "$folder/member"
exit "$failed"
