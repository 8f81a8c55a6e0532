#!/bin/sh
# Runs the lister on a script. Ends with 1 where the listing says bad or long, with 2 where there is no file to read,
# and with 3 where the lister does not run to its end. Use: list.sh LISTER SCRIPT [RUNNER..]
lister=$1 script=$2
shift 2
unread() {
    echo "$1" >&2
    exit 2
}
[ -n "$script" ] || unread "no script is named; use: make list SCRIPT=file"
[ -e "$script" ] || unread "there is no file $script"
[ ! -d "$script" ] || unread "$script is a directory"
[ -r "$script" ] || unread "$script cannot be read"
listing=$(mktemp) || exit 2
trap 'rm -f "$listing"' EXIT
{ "$@" "$lister" < "$script" || echo "the lister broke off"; } | tee "$listing" || exit 3
case $(tail -n 1 "$listing") in
bad* | long) exit 1 ;;
*"broke off") exit 3 ;;
esac
