#!/usr/bin/env bash
# Times `serve` before one member, beside the member alone and a plain relay before it, in turns: units of work of three round trips over
# connections that stay, at 1, 16 and 64 clients, and units over a connection of their own each. For each it prints the units in a
# second, those of `serve` and of the relay in relation, and the processor time that the one in front took for a unit.
#
# Usage: bench/serve.sh [UNITS [PORT]]      (PROGRAM in the environment: another program than the one that the gate has built)
source "$(dirname "$0")/serve/parts.sh"
units=${1:-20000}
port=${2:-4490}

# Units in a second, and microseconds of the processor for a unit in front, of one way.
measure() { # WAY MODE CLIENTS
    local way=$1 mode=$2 clients=$3 each=$((units / clients)) target=$port sessions before=0 after=0 front= member
    sessions=$clients
    [ "$mode" = units ] || sessions=$((clients * each))
    start $((port + 1)) member "$program" member --listen "127.0.0.1:$((port + 1))" --sessions 1000000 --workers 64 ALICE:SECRET
    member=$started
    case $way in
    serve)
        start "$port" serve "$program" serve --listen "127.0.0.1:$port" --rdb SAMPLE --sessions $((sessions + 1)) --workers 64 \
            --cap 32 "127.0.0.1:$((port + 1))=1"
        front=$started
        ;;
    relay)
        start "$port" relay "$folder/relay" "$port" $((port + 1))
        front=$started
        ;;
    member) target=$((port + 1)) ;;
    esac
    [ -z "$front" ] || before=$(processor_time "$front")
    read -r done_units micros < <("$folder/load" "$target" "$mode" "$clients" "$each")
    [ -z "$front" ] || after=$(processor_time "$front")
    stop "$member"
    [ -z "$front" ] || stop "$front"
    rate=$((done_units * 1000000 / micros))
    spent=$((100 * (after - before) / done_units))
}

row() { # NAME MODE CLIENTS
    local name=$1 best_member=0 best_relay=0 best_serve=0 relay_time=0 serve_time=0
    for _ in 1 2 3; do
        measure member "$2" "$3"
        [ "$rate" -le "$best_member" ] || best_member=$rate
        measure relay "$2" "$3"
        [ "$rate" -le "$best_relay" ] || { best_relay=$rate relay_time=$spent; }
        measure serve "$2" "$3"
        [ "$rate" -le "$best_serve" ] || { best_serve=$rate serve_time=$spent; }
    done
    printf '%-28s member %6d/s  relay %6d/s  serve %6d/s  to the relay %d.%02d  processor relay %4d.%02d us  serve %4d.%02d us\n' \
        "$name, $3 clients" "$best_member" "$best_relay" "$best_serve" $((best_serve / best_relay)) $((best_serve * 100 / best_relay % 100)) \
        $((relay_time / 100)) $((relay_time % 100)) $((serve_time / 100)) $((serve_time % 100))
}

for clients in 1 16 64; do row 'units of three round trips' units "$clients"; done
units=$((units / 10))
for clients in 1 16 64; do row 'a connection each' sessions "$clients"; done
