#!/bin/sh
# The instructions that a piece of work takes, libpil's and the model's, counted by the emulator: the same on every
# machine. Use: count.sh DIRECTORY PROGRAM
dir=$1
program=$1/$2
# Newer emulators have another word for one instruction at a time.
step=-singlestep
qemu-x86_64 -help | grep -q one-insn-per-tb && step=-one-insn-per-tb
# The C library chooses its memcpy and memcmp by the processor, so this is a fixed one.
executed() {
    qemu-x86_64 -cpu Nehalem $step -d exec,nochain -D "$dir/executed" "$program" "$1" "$2" || exit 1
    wc -l < "$dir/executed"
}
status=0
number=1
qemu-x86_64 "$program" devices || exit 1
qemu-x86_64 "$program" names > "$dir/names" || exit 1
while read -r what; do
    if none=$(executed $number 0) && pil=$(executed $number 1) && model=$(executed $number 2); then
        pil=$((pil - none)) model=$((model - none))
        ratio=$(((200 * pil + model) / (2 * model)))
        printf '%-42s libpil %7d  model %7d instructions  ratio %d.%02d\n' "$what" $pil $model $((ratio / 100)) \
            $((ratio % 100))
    else
        echo "$what: not done as it must be"
        status=1
    fi
    number=$((number + 1))
done < "$dir/names"
rm -f "$dir/executed" "$dir/names"
exit $status
