#!/bin/sh
# Proves the static library's crate and builds it, as target/staticlib/libmigthumo.a.
#
# Usage: tools/staticlib.sh     needs the Rattle kit
#
# The crate is crates/migthumo_c, whose exports hand on to the library `migthumo`; `rt lib` names the archive after the
# crate, and C and Rust know it as libmigthumo.a.
cd "$(dirname "$0")/.." || exit 1
(cd crates/migthumo_c && rt lib) || exit 1
mkdir -p target/staticlib && cp crates/migthumo_c/out/libmigthumo_c.a target/staticlib/libmigthumo.a
