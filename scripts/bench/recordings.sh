# Makes all-events.dat, system-calls.dat and mixture.dat, of 5,000 to 15,000 events each, by scripts/record_in_qemu.py.
# shellcheck shell=sh
# Formed by the kernel once, and not for each recording.
cat /proc/kallsyms > /tmp/symbols
mount --bind /tmp/symbols /proc/kallsyms
cat > /tmp/load << 'END'
for turn in $(seq "$1"); do
    dd if=/dev/zero bs=4096 count=40 2> /dev/null | gzip | cat > /tmp/copy
    ls -l /proc /tmp > /tmp/list
    sort /tmp/list | wc -l
    sleep 0.05
done
END
# A name, how often the load is run, and the events.
recorded() {
    name=$1 turns=$2
    shift 2
    trace-cmd record --file-version 6 -b 8192 -o "$name.dat" "$@" sh /tmp/load "$turns"
}
recorded all-events 1 -e all
recorded system-calls 8 -e syscalls
recorded mixture 2 -e sched -e timer -e kmem -e irq
