# Sourced: what a script needs is installed where that is allowed, else it is named and the script ends.

# Debian's packages.
packages() {
    if [ "$(id -u)" = 0 ] && command -v apt-get >/dev/null; then
        apt-get update -qq && apt-get install -y -qq --no-install-recommends "$@" >&2 && return
    fi
    echo "missing: $* (Debian packages)" >&2
    exit 2
}

# A command, and the package that has it.
need() {
    command -v "$1" >/dev/null || packages "$2"
}
