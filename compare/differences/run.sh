#!/bin/sh
# sh run.sh SOURCES [PROGRAM ..]
# Builds shrev 1.1.1 from the folder SOURCES (its lib.rs, storage.rs, util.rs) in a folder of its own that is
# removed at the end, with inside.rs added to the copy, and runs the programs in a debug and in a release build.
set -u
here=$(cd "$(dirname "$0")" && pwd)
sources=$(cd "$1" && pwd)
shift
work=$(mktemp -d)
trap 'rm -rf "$work"' EXIT
mkdir "$work/src" "$work/examples"
cp "$sources/lib.rs" "$sources/storage.rs" "$sources/util.rs" "$work/src/"
chmod u+w "$work"/src/*
cp "$here/inside.rs" "$work/src/"
printf '\n#[allow(missing_docs)]\n#[path = "inside.rs"]\npub mod inside;\n' >>"$work/src/storage.rs"
printf '\npub use crate::storage::inside;\n' >>"$work/src/lib.rs"
cp "$here"/programs/*.rs "$work/examples/"
cat >"$work/Cargo.toml" <<'END'
[package]
name = "shrev"
version = "1.1.1"
edition = "2021" # shrev has a variable named gen, which edition 2024 reserves
publish = false

[workspace]
END
cd "$work" || exit 1
[ $# -gt 0 ] || set -- $(ls examples | sed 's/[.]rs$//')
cargo build --offline --quiet --lib --examples 2>"$work/log" || { cat "$work/log"; exit 1; }
cargo build --offline --quiet --release --lib --examples 2>"$work/log" || { cat "$work/log"; exit 1; }
for program; do
    for build in debug release; do
        echo "== $program, $build"
        # 8 GiB of address space, so that a request for more fails at once
        (ulimit -c 0; ulimit -v 8388608; RUST_BACKTRACE=0 "target/$build/examples/$program" >"$work/log" 2>&1)
        status=$?
        sed -E "/^note: run with|^$/d; s/ \([0-9]+\) panicked/ panicked/; s#/rustc/[0-9a-f]+/##" "$work/log"
        [ $status -eq 0 ] || echo "(status $status)"
    done
done
for program in "$here"/refused/*.rs; do
    echo "== $(basename "$program" .rs), compiled"
    rustc --edition 2021 --crate-type bin --emit metadata -o "$work/refused" -L "$work/target/debug" \
        --extern shrev="$(ls "$work"/target/debug/libshrev.rlib)" "$program" 2>&1 | grep '^error'
done
