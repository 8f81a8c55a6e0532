#!/bin/sh
# Compares what the lister says on standard error with what its cases expect, crates/list_cases/words, and the status
# with which list.sh ends. Use: words.sh DIRECTORY RUNNER LISTER, the runner a string of words, perhaps none.
dir=$1 runner=$2 lister=$3 cases=../crates/list_cases
if [ -z "$lister" ]; then
    echo "words: the lister program is not built" >&2
    exit 1
fi
scripts=0
: > "$dir/words"
while read -r name; do
    echo "-- $name" >> "$dir/words"
    $runner "$lister" < "$cases/data/$name" 2>> "$dir/words" > /dev/null
    scripts=$((scripts + 1))
done < $cases/args
diff $cases/words "$dir/words" || exit 1

ends_with() { # STATUS SCRIPT
    ./list.sh "$lister" "$2" $runner > /dev/null 2>&1
    status=$?
    if [ $status -ne "$1" ]; then
        echo "words: list.sh ends with $status, not $1, on '$2'"
        exit 1
    fi
}
cp ../scripts/meter.txt "$dir/a meter.txt"
ends_with 0 "$dir/a meter.txt"
ends_with 1 $cases/data/over_7ff
ends_with 1 $cases/data/bytes_60001
ends_with 2 ""
ends_with 2 "$dir"
ends_with 2 "$dir/no such file"
echo "words: $scripts scripts, as expected"
