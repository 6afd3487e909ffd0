# Read by scripts/harness and scripts/harness-c, which set `here` to the repository's folder and `who` to their own name. The proved library is compiled
# for x86-64. On another processor Debian's cross tools build for it, and Debian's emulator runs what they build.

case ${YARNSPIRE_LIB:-} in
'') YARNSPIRE_LIB=$here/target/staticlib ;;
/*) ;;
*) YARNSPIRE_LIB=$PWD/$YARNSPIRE_LIB ;;
esac
export YARNSPIRE_LIB

packages='rustc cargo libstd-rust-dev:amd64 gcc-x86-64-linux-gnu libc6-dev:amd64 libc6-dev-amd64-cross qemu-user'

# stop TEXT..: ends the script with a message.
stop() {
    echo "$who: $*" >&2
    exit 1
}

need_archive() {
    [ -f "$YARNSPIRE_LIB/libyarnspire.a" ] || stop "there is no $YARNSPIRE_LIB/libyarnspire.a: make it with scripts/archive"
}

is_x86_64() {
    [ "$(uname -m)" = x86_64 ]
}

# The packages that are not installed.
missing_packages() {
    for package in $packages; do
        case $(dpkg-query -W -f '${db:Status-Abbrev}' "$package" 2>/dev/null) in
        ii*) ;;
        *) echo "$package" ;;
        esac
    done
}

# install PACKAGES..: tries three times, since a network may fail once.
install() {
    dpkg --add-architecture amd64
    for pause in 5 20 0; do
        if apt-get update && DEBIAN_FRONTEND=noninteractive apt-get install -y --no-install-recommends "$@"; then
            return 0
        fi
        sleep $pause
    done
    return 1
}

# Installs the cross tools that are missing. What is said about it is kept in target/cross.log, and shown only if it fails.
need_cross_tools() {
    command -v dpkg-query >/dev/null || stop "this machine is not x86-64, and so Debian's packages are needed: $packages"
    missing=$(missing_packages)
    [ -n "$missing" ] || return 0
    echo "installing" $missing ".." >&2
    mkdir -p "$here/target"
    if ! install $missing >"$here/target/cross.log" 2>&1; then
        cat "$here/target/cross.log" >&2
        stop "these Debian packages are needed, and could not be installed:" $missing
    fi
}

# run PROGRAM WORDS..: runs a program that is compiled for x86-64.
run() {
    if is_x86_64; then
        "$@"
    else
        /usr/bin/qemu-x86_64 -L / "$@"
    fi
}
