#!/bin/sh
# Shows that the comparison can fail: with each deliberate fault in the model it must find a difference within thirty
# thousand calls, for each of three seeds, and without a fault none. So must saves, run on the model in place of libpil,
# with each fault of writing, reading or judging a save. Use: faults.sh FAULTS SAVE_FAULTS DIRECTORY OLD_SAVE
# [RUNNER..], faults being numbers.
faults=$1 save_faults=$2 dir=$3 old_save=$4
shift 4
calls=30000
status=0
for seed in 1 2 3; do
    for fault in $faults; do
        found=$("$@" "$dir/compare-fault$fault" $seed $calls | sed -n 's/^difference at call \([0-9]*\) .*/\1/p')
        if [ -n "$found" ] && [ "$found" -le $calls ]; then
            echo "fault $fault, seed $seed: found at call $found"
        else
            echo "fault $fault, seed $seed: NOT FOUND in $calls calls"
            status=1
        fi
    done
    if "$@" "$dir/compare" $seed $calls > "$dir/no-fault.out"; then
        echo "no fault, seed $seed: no difference"
    else
        echo "no fault, seed $seed: FAILED"
        cat "$dir/no-fault.out"
        status=1
    fi
done
for fault in 0 $save_faults; do
    "$@" "$dir/saves-fault$fault" "$dir/saved" "$old_save" > "$dir/saves-fault.out"
    found=$?
    echo "saves, fault $fault: $(cat "$dir/saves-fault.out")"
    if [ $((found != 0)) -ne $((fault != 0)) ]; then
        echo "saves, fault $fault: ENDED WITH $found"
        status=1
    fi
done
exit $status
