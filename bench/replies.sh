#!/usr/bin/env bash
# Times reading replies against copying the same bytes, so many times. What times a job is that of bench/frames.
cd "$(dirname "$0")/.." || exit 1
exec bench/program.sh replies "${1:-1}" 'link_ends dss_frame reply_texts access_handshake unit_segments requester_core' \
    bench/frames/{jobs,timing,trouble}.rt.in bench/replies/*.rt.in bench/replies/proofs/replies/+fit/*.in
