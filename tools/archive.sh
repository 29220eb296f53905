#!/usr/bin/env bash
# target/staticlib/libmoments.a, the archive for other languages: `rt lib` makes it of the crate moments_c, once that and what it is built on
# are proved, and names it after the crate.
set -euo pipefail
cd "$(dirname "$0")/.."
(cd crates/moments_c && rt lib)
mkdir -p target/staticlib
cp crates/moments_c/out/libmoments_c.a target/staticlib/libmoments.a
