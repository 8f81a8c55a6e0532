#!/bin/sh
# Sees to the commands that the work here needs: installs the missing packages when run as root, and otherwise says
# which they are. Use: tools.sh WORD.., the words being
#   rt        the prover, which cannot be installed from here    compile   a C compiler for x86-64, and its C library
#   run       what runs an x86-64 program on this machine        c++       the same for C++
#   emulator  an emulator, on x86-64 machines too                NAME      a command that a package of its name has
missing= packages=

need() { # COMMAND-OR-FILE PACKAGE..
    if ! command -v "$1" > /dev/null && [ ! -e "$1" ]; then
        missing="$missing $1"
        shift
        packages="$packages $*"
    fi
}

if [ "$(uname -m)" = x86_64 ]; then
    native=yes prefix= cross= libc=/usr/lib/x86_64-linux-gnu/libc.a libc_dev=libc6-dev
else
    native= prefix=x86_64-linux-gnu- cross=-x86-64-linux-gnu
    libc=/usr/x86_64-linux-gnu/lib/libc.a libc_dev=libc6-dev-amd64-cross
fi
for word in "$@"; do
    case $word in
    rt)
        if ! command -v rt > /dev/null; then
            echo "rt is not on the PATH. It is the command of the Rattle kit, which proves and compiles this" >&2
            echo "repository; nothing here is built without it (README, \"What you need\")." >&2
            exit 1
        fi ;;
    compile) need "${prefix}gcc" "gcc$cross" && need "$libc" "$libc_dev" ;;
    c++) need "${prefix}g++" "g++$cross" ;;
    emulator) need qemu-x86_64 qemu-user ;;
    run)
        if [ -z "$native" ]; then
            need qemu-x86_64 qemu-user
            need /usr/x86_64-linux-gnu/lib/ld-linux-x86-64.so.2 libc6-amd64-cross
        fi ;;
    *) need "$word" "$word" ;;
    esac
done
[ -z "$missing" ] && exit 0
echo "missing:$missing" >&2
if [ "$(id -u)" -ne 0 ] || ! command -v apt-get > /dev/null; then
    echo "install these packages:$packages" >&2
    exit 1
fi
echo "installing:$packages" >&2
export DEBIAN_FRONTEND=noninteractive
apt-get -qq update && apt-get -qq install -y --no-install-recommends $packages > /dev/null
