#!/bin/sh
# Proves and builds the three programs, and puts them into target/bin.
cd "$(dirname "$0")" || exit 1
mkdir -p target/bin
echo "proving and building the programs; the first time takes some minutes" >&2
for program in gate find until; do
    if ! (cd "crates/$program" && rt run -- --version) >"target/$program.log" 2>&1; then
        cat "target/$program.log" >&2
        exit 1
    fi
    cp "crates/$program/out/$program" target/bin/ || exit 1
done
