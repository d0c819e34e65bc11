# Sourced by whatever builds or runs programs with the proved library in them. The library is for x86-64, so these are
# programs for x86-64 too. On such a machine nothing changes. On another one they are cross-built and emulated with
# Debian's packages. SAPHYR_CROSS=1 goes that way on x86-64 as well.
#
# Sets cc, cxx and emulator, as words of a command, and what cargo reads.

. "$(dirname "${BASH_SOURCE[0]}")/need.sh"

# Debian's Rust has its library for x86-64 as a package of that architecture.
rust_for_x86_64() {
    local folder
    folder=$(/usr/bin/rustc --print target-libdir --target x86_64-unknown-linux-gnu 2>/dev/null) &&
        ls "$folder"/libstd-*.rlib >/dev/null 2>&1
}

cross() {
    if ! rust_for_x86_64; then
        [ "$(uname -m)" = x86_64 ] || dpkg --add-architecture amd64 2>/dev/null || true
        packages rustc-web libstd-rust-web-dev:amd64
    fi
    need x86_64-linux-gnu-gcc gcc-x86-64-linux-gnu
    need qemu-x86_64 qemu-user
    # The cross compiler comes without the C library.
    echo 'int main(void) { return 0; }' | x86_64-linux-gnu-gcc -static -x c -o /dev/null - 2>/dev/null ||
        packages libc6-dev-amd64-cross
    cc=(x86_64-linux-gnu-gcc -static)
    cxx=(x86_64-linux-gnu-g++ -static)
    emulator=(qemu-x86_64)
    # One that stands earlier in PATH may know its own machine only.
    export RUSTC=/usr/bin/rustc RUSTDOC=/usr/bin/rustdoc
    export CARGO_BUILD_TARGET=x86_64-unknown-linux-gnu
    export CARGO_TARGET_X86_64_UNKNOWN_LINUX_GNU_LINKER=x86_64-linux-gnu-gcc
    export CARGO_TARGET_X86_64_UNKNOWN_LINUX_GNU_RUNNER=qemu-x86_64
    export CARGO_TARGET_X86_64_UNKNOWN_LINUX_GNU_RUSTFLAGS="-C relocation-model=static"
    export CARGO_TARGET_X86_64_UNKNOWN_LINUX_GNU_RUSTDOCFLAGS="-C relocation-model=static"
    # For programs that start others: the system itself may not know how.
    export SAPHYR_EMULATOR=qemu-x86_64
}

if [ "$(uname -m)" = x86_64 ] && [ -z "${SAPHYR_CROSS:-}" ]; then
    cc=(gcc)
    cxx=(g++)
    emulator=()
else
    cross
fi
