#!/usr/bin/env bash
# Proves, builds and runs the program of a bench: program.sh NAME RUNS 'CRATES' FILE..
# CRATES are those that the program stands on; FILEs, from the top of the repository, are its sources. It is built in a folder of
# its own, with what was proved before of the crates, which takes some minutes, and run so many times.
set -eu
cd "$(dirname "$0")/.."
name=$1 runs=$2 crates=$3
shift 3
command -v rt >/dev/null || { echo "$name.sh: the toolchain's command rt isn't on the PATH" >&2; exit 1; }
folder=$(mktemp -d)
trap 'rm -rf "$folder"' EXIT
program=$folder/crates/$name
mkdir -p "$program/src"

# A crate of the repository with all that it stands on.
copy_crate() {
    local line below
    line=$(grep "^$1:" crates.txt) || return 0
    [ -d "$folder/crates/$1" ] && return 0
    cp -a "crates/$1" "$folder/crates/"
    echo "$line" >>"$folder/crates.txt"
    for below in ${line#*:}; do copy_crate "$below"; done
}
for crate in $crates; do copy_crate "$crate"; done
echo "$name: $crates" >>"$folder/crates.txt"

# The files end in .rt and .antt only there: rt ci lets such a file stand in a crate alone.
for file in "$@"; do
    case $file in
    *.rt.in) cp "$file" "$program/src/$(basename "$file" .in)" ;;
    *) # bench/NAME/proofs/.., a proof
        target=$program/${file#bench/"$name"/}
        mkdir -p "$(dirname "$target")"
        cp "$file" "${target%.in}"
        ;;
    esac
done

# `rt run` builds with LLVM's optimization. What it says of the proof and the build goes to its standard error.
cd "$program"
echo "$name.sh: proving and building the program; this takes some minutes" >&2
if ! rt run >first 2>log </dev/null; then
    tail -n 20 log >&2
    exit 1
fi
cat first
for _ in $(seq 2 "$runs"); do
    echo
    "./out/$name"
done
