#!/usr/bin/env bash
# Runs applications and members that do what they shouldn't round a gateway, beside honest ones, and tells of each what came of it.
# It takes less than a minute, and nothing stays running.
#
# Usage: examples/hostile.sh [PORT]     (PORT and the two ports behind it are used; PROGRAM in the environment: a built program)
set -u
top=$(dirname -- "$(readlink -f -- "$0")")/..
program=${PROGRAM:-$top/gateway}

# The program is built here where it is older than its sources. Without words it answers with its usage.
"$program" >/dev/null
[ $? -ne 70 ] || exit 70
exec timeout 120 python3 -B "$top/examples/hostile.py" "$program" "${1:-4480}"
