#!/usr/bin/env bash
# Runs a small member for one session, says EXCSAT to it as a gateway would, and shows what it answers, then what the member tells
# when the session has ended. Nothing stays running.
#
# Usage: examples/member.sh [PORT]
set -u
top=$(dirname -- "$(readlink -f -- "$0")")/..
port=${1:-4460}
member=

end_member() {
    [ -z "$member" ] || kill -s TERM "$member" 2>/dev/null
}
trap end_member EXIT
trap 'exit 130' INT
trap 'exit 143' TERM HUP

# The program is built here where it is older than its sources. Without words it answers with its usage.
"$top/gateway" >/dev/null
[ $? -ne 70 ] || exit 70

"$top/gateway" member --listen "127.0.0.1:$port" --sessions 1 --workers 1 ALICE:SECRET &
member=$!

# The first connection is the session, so it is only asked for again where there was none.
connected=
for _ in $(seq 50); do
    { exec 3<>"/dev/tcp/127.0.0.1/$port"; } 2>/dev/null && connected=yes && break
    kill -0 "$member" 2>/dev/null || break
    sleep 0.1
done
if [ -z "$connected" ]; then
    echo "member.sh: nothing listens at 127.0.0.1:$port" >&2
    exit 1
fi

# EXCSAT with the manager levels of a gateway, and the 34 bytes of its answer.
printf '\x00\x22\xD0\x01\x00\x01\x00\x1C\x10\x41\x00\x18\x14\x04\x14\x03\x00\x07\x24\x07\x00\x07\x24\x0F\x00\x07\x14\x40\x00\x07\x14\x74\x00\x05' >&3
timeout 10 head -c 34 <&3 | od -An -v -tx1 -w34 | tr -d ' '
exec 3>&-

# The session ends with the connection, and the member with its one session.
wait "$member"
status=$?
member=
exit "$status"
