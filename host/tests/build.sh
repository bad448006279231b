# What the library is built with: host/build keeps its output for itself, and cargo builds the Rust crate; sourced by host/check.
# shellcheck shell=sh disable=SC2154 # variables of host/check

# A kit that only says what it proved and leaves the archive that is there, and an archive that looks older than its sources.
archive=$root/target/staticlib/libpsp.a
mkdir kit
printf '#!/bin/sh\nmkdir -p out\ncp "%s" out/libpsp_c.a\necho "fn psp::list: proved"\n' "$archive" > kit/rt
chmod +x kit/rt
touch -r "$archive" built
touch -t 197001020000 "$archive"
PATH=$PWD/kit:$PATH "$root/host/build" > printed 2> said
same "host/build: status" 0 $?
touch -r built "$archive"
same "host/build: prints nothing" "" "$(cat printed)"
same "host/build: says what was proved" "fn psp::list: proved" "$(cat said)"

# Cargo builds the crate and the example over the archive, and runs the tests of the boundary; without the archive it says what to do.
manifest=$root/host/src/psp/Cargo.toml
cargo_test() { cargo test --quiet --offline --manifest-path "$1" --target-dir target > said 2>&1; }
if [ "$(uname -m)" = x86_64 ] && command -v cargo > /dev/null; then
  cargo_test "$manifest"
  same "cargo test: status" 0 $?
  same "cargo test: the example" "placed at (20,14) on 96 by 64: 1500 pixels are not 0" \
    "$(target/debug/examples/placed_plane mug.psp 4 1 0 | tail -n 1)"
  mkdir -p bare/host/src bare/host/tests bare/examples
  cp -r "$root/host/src/psp" bare/host/src/
  cp "$root/host/tests/boundary.rs" bare/host/tests/
  cp "$root/examples/placed_plane.rs" bare/examples/
  cargo_test bare/host/src/psp/Cargo.toml
  same "cargo without the archive: status" 101 $?
  same "cargo without the archive: sentence" 1 "$(grep -c 'is missing: run host/build or host/archive' said)"
else
  echo "host/check: cargo is missing or builds for another machine, so it is not tried" >&2
fi
