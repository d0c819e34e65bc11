#!/usr/bin/env bash
# The tests of every crate of host/, for the gate. On x86-64 that is one call of cargo. Where programs that link the proved
# library are emulated (machine.sh), the crates that do not link it are built for the machine itself and tested there,
# and all others under the emulator; some tests then take a sample, and say so (host/emulated/src/sample.rs).
set -euo pipefail
cd "$(dirname "$0")/.."

# Nothing in these leads to the library. A crate of the workspace that is not named here is tested with it.
without=(records emulated thiserror scan oracle lists)

emulator=$(. tools/machine.sh && echo "${emulator[*]}")
tests=(test --offline --quiet --manifest-path host/Cargo.toml)
if [ -z "$emulator" ]; then
    exec tools/host.sh "${tests[@]}" --workspace
fi
. tools/need.sh
need cargo cargo-web
echo "host's tests, for this machine: ${without[*]}"
env -u SAPHYR_EMULATOR -u CARGO_BUILD_TARGET \
    cargo "${tests[@]}" --target-dir host/target/native "${without[@]/#/--package=}"
echo "host's tests, under $emulator: all other crates"
tools/host.sh "${tests[@]}" --workspace "${without[@]/#/--exclude=}"
