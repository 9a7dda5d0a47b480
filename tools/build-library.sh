#!/usr/bin/env bash
# Proves and builds the library for C and Rust, target/staticlib/libembed.a: tools/build-library.sh
# 'rt lib' makes it in crates/embed/out, which 'rt ci' sets aside.
set -eu -o pipefail
cd "$(dirname "$0")/.."
(cd crates/embed && rt lib)
mkdir -p target/staticlib
cp crates/embed/out/libembed.a target/staticlib/libembed.a.new
mv target/staticlib/libembed.a.new target/staticlib/libembed.a
echo 'target/staticlib/libembed.a is written'
