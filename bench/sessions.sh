#!/usr/bin/env bash
# Runs many sessions, each of one unit of work with a key of its own, from 64 clients through `serve --workers 64 --cap 8` before one
# member, and compares every byte that each is answered. None may be lost: the gateway must serve as many and end by itself, and the
# member must have committed as many.
#
# Usage: bench/sessions.sh [SESSIONS [PORT]]    (PROGRAM in the environment: another program than the one that the gate has built)
source "$(dirname "$0")/serve/parts.sh"
sessions=$(((${1:-10000} + 63) / 64 * 64))
port=${2:-4490}

# The gateway dials at most as many connections as it may lend.
start $((port + 1)) member "$program" member --listen "127.0.0.1:$((port + 1))" --sessions 8 --workers 8 ALICE:SECRET
member=$started
start "$port" serve "$program" serve --listen "127.0.0.1:$port" --rdb SAMPLE --sessions "$sessions" --workers 64 --cap 8 "127.0.0.1:$((port + 1))=1"
gateway=$started
read -r count micros < <("$folder/load" "$port" checked 64 $((sessions / 64)))
wait "$gateway"
cat "$folder/serve.out"
grep -qx "sessions $sessions" "$folder/serve.out"

# Connections that the gateway didn't need are made here, so that the member ends.
while kill -0 "$member" 2>/dev/null; do
    (exec 3<>"/dev/tcp/127.0.0.1/$((port + 1))") 2>/dev/null || true
    sleep 0.05
done
wait "$member"
running=()
cat "$folder/member.out"
grep -qx "commits $sessions" "$folder/member.out"
echo "$count sessions in $((micros / 1000)) ms, none lost"
