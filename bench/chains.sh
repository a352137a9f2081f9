#!/usr/bin/env bash
# Times reading, cutting, asking and joining chains against copying the same bytes, so many times. What times a job is that of
# bench/frames.
cd "$(dirname "$0")/.." || exit 1
exec bench/program.sh chains "${1:-1}" 'link_ends dss_frame unit_segments' \
    bench/frames/{jobs,timing,trouble}.rt.in bench/chains/*.rt.in bench/chains/proofs/chains/+fit/*.in
