#!/usr/bin/env bash
# Times units of work of one session over links in memory against copying and parsing the same bytes, and tells what a session at
# rest holds, so many times. What times a job is that of bench/frames.
cd "$(dirname "$0")/.." || exit 1
exec bench/program.sh session "${1:-1}" 'link_ends dss_frame reply_texts hex_lines gateway_session' \
    bench/frames/{jobs,timing,trouble}.rt.in bench/session/*.rt.in
