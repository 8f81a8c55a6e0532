#!/bin/sh
# Compares the lister with the model's lister on random texts, right and wrong, and on both sides of 60,000 bytes. On
# standard error the lister has to say something just where a listing ends with "bad N" or "long", and to name line N.
# Use: lists.sh DIRECTORY RUNNER LISTER, the runner a string of words, perhaps none.
dir=$1 runner=$2 lister=$3 texts=200
if [ -z "$lister" ]; then
    echo "lists: the lister program is not built" >&2
    exit 1
fi

# Whether the words are those that a listing's last line asks for: none, some, or some that name a line.
words_right() {
    case $1 in
    "bad "*) grep -Eq "line ${1#bad }(:|\$)" "$2" ;;
    long) [ -s "$2" ] ;;
    *) [ ! -s "$2" ] ;;
    esac
}

seed=1
while [ $seed -le $texts ]; do
    $runner "$dir/list" text $seed > "$dir/text"
    $runner "$dir/list" < "$dir/text" > "$dir/text.model"
    $runner "$lister" < "$dir/text" > "$dir/text.lister" 2> "$dir/text.words"
    if ! cmp "$dir/text.model" "$dir/text.lister"; then
        echo "lists: text $seed is listed otherwise, see $dir/text"
        exit 1
    fi
    if ! words_right "$(tail -n 1 "$dir/text.lister")" "$dir/text.words"; then
        echo "lists: text $seed has wrong words, see $dir/text and $dir/text.words"
        exit 1
    fi
    seed=$((seed + 1))
done
echo "lists: $texts texts listed alike"
