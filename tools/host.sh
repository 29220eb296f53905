#!/usr/bin/env bash
# The host's side: every test in Rust, with the compiler's checks of arithmetic and without; layout and lints where cargo has the tools for
# them; that no row loop of the archive calls another function. Random calls are compared with the Rust, and the benchmark is built and run
# over a few readings, where ORACLE_SRC names the folder of the Rust's sources, or a folder beside the repository has them.
set -euo pipefail
cd "$(dirname "$0")/.."
if [ -z "${ORACLE_SRC:-}" ] && [ -d ../shared/docs/src ]; then
  ORACLE_SRC=$(cd ../shared/docs/src && pwd)
  export ORACLE_SRC
fi
crates=(host)
if [ -n "${ORACLE_SRC:-}" ]; then crates+=(bench); else echo "host.sh: ORACLE_SRC names no folder: no comparison with the Rust"; fi
tool() {
  if cargo "$1" --version >/dev/null 2>&1; then
    for crate in "${crates[@]}"; do (cd "$crate" && cargo "$@"); done
  else
    echo "host.sh: cargo has no $1"
  fi
}
tool fmt --check
tool clippy --offline --quiet --all-targets -- -D warnings
cd host
cargo test --offline -- --skip limits --skip oracle --skip valgrind
cargo test --release --offline
cargo test --release --offline --test collector -- --ignored
# the archive that the tests were linked with: build.rs takes a relative folder from here too
bash ../tools/norowcall.sh "${MOMENTS_LIB_DIR:-../target/staticlib}/libmoments.a"
cd ..
if [ -n "${ORACLE_SRC:-}" ]; then
  cargo build --release --offline --manifest-path bench/Cargo.toml
  # what it says on standard error is only how far it is
  bench/target/release/bench --n 1000,3000 --reps 3 --budget 0.01 2>/dev/null | tail -n 1
fi
