#!/usr/bin/env bash
# Builds the proved search and screen as a static library, out of a copy of the crates, so that the repository's own
# list of crates stays without it. The library and the C library's part that it calls are laid into target/proved.
set -euo pipefail
here=$(cd "$(dirname "${BASH_SOURCE[0]}")" && pwd)
work=$here/target/proved
rm -rf "$work"
mkdir -p "$work/crates"
cp "$here/../crates.txt" "$work/"
for crate in "$here"/../crates/*/; do
    name=$(basename "$crate")
    mkdir -p "$work/crates/$name"
    for part in src specs proofs; do
        if [ -d "$crate$part" ]; then
            cp -r "$crate$part" "$work/crates/$name/"
        fi
    done
done
mkdir -p "$work/crates/bench_c/src" "$work/crates/bench_c/specs"
for source in "$here"/bench_c/src/*.rattle; do
    cp "$source" "$work/crates/bench_c/src/$(basename "$source" .rattle).rt"
done
for source in "$here"/bench_c/specs/*.rattle; do
    cp "$source" "$work/crates/bench_c/specs/$(basename "$source" .rattle).antt"
done
# it stands on the panel and the screen, and on what these stand on
below=$(sed -n 's/^\(dec_panel\|screen\):/\1/p' "$work/crates.txt" | tr ' ' '\n' | sort -u | tr '\n' ' ')
echo "bench_c staticlib: $below" >> "$work/crates.txt"
(cd "$work/crates/bench_c" && rt lib)
cp "$work/crates/bench_c/out/libbench_c.a" "$(dirname "$(rt doc)")/c/liblibc_c.a" "$work/"
