#!/usr/bin/env bash
# The proved library for C and for host/: proves and compiles crates/face_c, over what earlier checks kept in crates/*/out, and
# puts the archive where C callers and host/ look for it, in target/staticlib/libface.a.
set -euo pipefail
cd "$(dirname "$0")/.."

command -v rt >/dev/null || {
    echo "missing: rt, the command of the Rattle kit" >&2
    exit 2
}
made=crates/face_c/out/libface_c.a
library=target/staticlib/libface.a
rm -f "$made"
(cd crates/face_c && rt lib)
mkdir -p "$(dirname "$library")"
# One that is the same stays, so that nothing that links it is built again.
cmp -s "$made" "$library" || cp "$made" "$library"
echo "$library is made"
