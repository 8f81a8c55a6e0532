#!/bin/sh
# Runs a test by chance, and shows that it can fail: with each fault, planted in what the test was given or in the model
# that stands in libpil's place, it must find a difference, for each of three seeds; with fault 0, none.
# Use: found.sh TEST FAULTS DIRECTORY [RUNNER..]; a fault is the end of its program's name: where it is, and its number.
test=$1 faults=$2 dir=$3
shift 3
times=300
status=0

# What a program came to, as found or not: its fault, how it ended, and what it wrote of a difference.
outcome() {
    case $1 in
    *[!0-9]0) [ "$2" -eq 0 ] && echo "no difference in $times" || echo "FAILED, ended with $2 $3" ;;
    *) [ "$2" -eq 1 ] && [ -n "$3" ] && echo "found in $3" || echo "NOT FOUND, ended with $2" ;;
    esac
}

"$@" "$dir/$test" || status=1
for fault in $faults; do
    for seed in 1 2 3; do
        "$@" "$dir/$test-$fault" $seed $times > "$dir/$test-fault.out"
        ended=$?
        difference=$(sed -n "s/^difference in \([a-z]* [0-9]*\) of seed $seed, /\1, /p" "$dir/$test-fault.out")
        came=$(outcome "$fault" $ended "$difference")
        echo "$test, $fault, seed $seed: $came"
        case $came in
        NOT* | FAILED*) status=1 ;;
        esac
    done
done
exit $status
