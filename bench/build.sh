#!/usr/bin/env bash
# Builds the programs that bench/speed.py, lists.py and agree.py compare with, into bench/out: `measured`,
# `lists` and `answers` over the Rust crate serde_cbor, and `libcbor`. They stand on Debian's packages
# librust-serde-cbor-dev, librust-serde-derive-dev, librust-half-dev and libcbor-dev; cargo and cc have
# to be there. Where go is, with golang-github-fxamacker-cbor-dev, `fxamacker` is built too.
set -euo pipefail
cd "$(dirname "$0")"
registry=${CARGO_REGISTRY:-/usr/share/cargo/registry}
if ! compgen -G "$registry/serde_cbor-0.11*" > /dev/null; then
    echo "no serde_cbor below $registry: apt-get install librust-serde-cbor-dev librust-serde-derive-dev" \
        "librust-half-dev libcbor-dev valgrind" >&2
    exit 1
fi
mkdir -p out
rm -rf out/rust
cp -r rust out/rust
(
    cd out/rust
    cargo build --release --offline --quiet --target-dir ../target \
        --config 'source.crates-io.replace-with="debian"' \
        --config "source.debian.directory=\"$registry\""
)
cp out/target/release/measured out/target/release/answers out/target/release/lists out/
cc -O2 -o out/libcbor libcbor.c -lcbor
if command -v go > /dev/null; then
    GO111MODULE=off GOPATH=${GOPATH:-/usr/share/gocode} go build -o out/fxamacker go/lists.go
fi
