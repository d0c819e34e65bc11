#!/usr/bin/env bash
# Damaged lists through the C face: compiles tests/c against the proved library and runs it. Arguments go to the program.
# Before that, the memory to lend as the header has it, in C and in C++: both print the same.
set -euo pipefail
cd "$(dirname "$0")/../.."

library=${SAPHYR_FACE:-target/staticlib/libface.a}
if [ ! -f "$library" ]; then
    echo "tests/c: $library is missing: make it with 'tools/library.sh'" >&2
    exit 2
fi
. tools/machine.sh
folder=$(mktemp -d)
trap 'rm -rf "$folder"' EXIT
warn="-O2 -Wall -Wextra -Werror -Iinclude"
"${cc[@]}" -std=c11 $warn tests/c/rooms.c -o "$folder/rooms"
"${emulator[@]}" "$folder/rooms" >"$folder/rooms.txt"
if command -v "${cxx[0]}" >/dev/null; then
    "${cxx[@]}" -std=c++11 $warn -x c++ tests/c/rooms.c -o "$folder/rooms++"
    "${emulator[@]}" "$folder/rooms++" | cmp - "$folder/rooms.txt"
    echo "rooms: $(wc -l <"$folder/rooms.txt") numbers of tokens, the same in C and C++"
else
    echo "rooms: C only, there is no ${cxx[0]}"
fi
"${cc[@]}" -std=c11 $warn tests/c/damaged.c tests/c/lists.c "$library" -o "$folder/damaged"
# A call that does not return is a failure too.
timeout 600 "${emulator[@]}" "$folder/damaged" "$@"
