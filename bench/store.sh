#!/usr/bin/env bash
# Times inserts, each with its commit, of the small group through a conversation, so many times.
cd "$(dirname "$0")/.." || exit 1
exec bench/program.sh store "${1:-1}" 'link_ends dss_frame ddm_codepoints reply_texts server_list member_core group_store' \
    bench/frames/trouble.rt.in bench/store/*.rt.in
