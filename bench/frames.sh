#!/usr/bin/env bash
# Times writing and reading DSSs against copying the same bytes, so many times.
cd "$(dirname "$0")/.." || exit 1
exec bench/program.sh frames "${1:-1}" 'link_ends dss_frame' bench/frames/*.rt.in
