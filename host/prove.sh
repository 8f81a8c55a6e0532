#!/bin/sh
# Proves and builds a crate by rt, and puts what it makes where the programs here look for it: a static library where
# the place ends in .a, else a program. What the prover prints is shown only where it fails.
# Use, in the root: host/prove.sh WHAT CRATE PLACE, as host/prove.sh "the lister" pil_list target/bin/pil_list
what=$1 crate=$2 place=$3
host/tools.sh rt || exit 1
case $place in
*.a) command=lib made=crates/$crate/out/lib$crate.a ;;
*) command=run made=crates/$crate/out/$crate ;; # on no input, which a program takes for an empty one
esac
echo "Building $what. Its crates are proved first, which takes some minutes from nothing, later only what changed." >&2
log=$(mktemp) || exit 1
trap 'rm -f "$log"' EXIT
if ! (cd "crates/$crate" && rt $command < /dev/null > "$log" 2>&1) || [ ! -e "$made" ]; then
    cat "$log" >&2
    echo "$what is not built." >&2
    exit 1
fi
mkdir -p "$(dirname "$place")" && cp "$made" "$place"
