#!/usr/bin/env bash
# cargo for host/, on any machine: on x86-64 it is cargo itself, elsewhere it builds for x86-64 and runs what it built under
# an emulator (machine.sh). As in `tools/host.sh test --offline --manifest-path host/Cargo.toml --workspace`.
set -euo pipefail
. "$(dirname "$0")/machine.sh"
# Debian's cargo of the same release as its rustc-web: the plain one is too old for the sources.
need cargo cargo-web
exec cargo "$@"
