#!/bin/bash
# Runs PROGRAM where the system refuses something, and tells what it did not answer as it must.
#
#     scripts/checks/real_faults.sh PROGRAM [TRACE]
#
# TRACE is a recording whose report is longer than 200,000 bytes; without one it is samples/sched.dat. Each case below says what
# must come of it: the status, the message, and what stands afterwards. New files stand whole or not at all under their names,
# whatever happens; NAME.part stays only where a signal ended the program. Cases that this machine or this user cannot make are
# named and passed over. It ends with 0 where all was as it must be, and else with 1.

program=$(realpath "$1")
trace=$(realpath "${2:-$(dirname "$0")/../../samples/sched.dat}")
room=$(mktemp -d)
# A part of this script that a signal ends must not clear the room away.
trap '[ $BASHPID != $$ ] || rm -rf "$room"' EXIT
cd "$room" || exit 1
chmod 755 "$room"
cp "$trace" trace.dat
failed=0
cases=0

# wrong WHAT: the case was not answered as it must be.
wrong() {
    echo "WRONG: $case: $1"
    failed=1
}

# begins CASE: the cases are counted.
begins() {
    case=$1
    cases=$((cases + 1))
    rm -rf out err new
    : >out
    : >err
    mkdir new || exit 1
}

# status_is WANTED FOUND
status_is() { [ "$2" = "$1" ] || wrong "status $2, not $1"; }

# says TEXT: the message is this line, or nothing.
says() { [ "$(cat err)" = "$1" ] || wrong "message '$(cat err)', not '$1'"; }

# begins_whole: the output is whole lines, the first of the whole report.
begins_whole() {
    cmp -s -n "$(stat -c %s out)" out whole || wrong "the output is not the beginning of the report"
    [ ! -s out ] || [ "$(tail -c 1 out | od -An -tx1 | tr -d ' ')" = 0a ] || wrong "the last line is cut"
}

# only_whole PARTS [CLEAN]: each new file is whole, they are the first ones, and at most so many parts stay.
only_whole() {
    local number=1 clean=${2:-clean}
    while [ -e "new/p.$number" ]; do
        cmp -s "new/p.$number" "$clean/p.$number" || wrong "p.$number is not whole"
        number=$((number + 1))
    done
    local names parts
    names=$(find new -type f ! -name '*.part' | wc -l)
    parts=$(find new -type f -name '*.part' | wc -l)
    [ "$names" -eq $((number - 1)) ] || wrong "$names new files, but p.$number is missing"
    [ "$parts" -le "$1" ] || wrong "$parts parts stay"
}

"$program" report trace.dat >whole || exit 1
mkdir clean
"$program" split -i trace.dat -e 50 -r -o clean/p || exit 1
mkdir small
"$program" split -i trace.dat -e 5 -r -o small/p || exit 1

begins "a full device"
"$program" report trace.dat >/dev/full 2>err
status_is 5 $?
says "trace-cmd: write failed"

begins "a full device for the message too"
"$program" report trace.dat >/dev/full 2>/dev/full
status_is 5 $?

begins "an output that is closed"
"$program" report trace.dat >&- 2>err
status_is 5 $?
says "trace-cmd: write failed"

begins "outputs that are closed, and new files"
"$program" split -i trace.dat -e 50 -r -o new/p >&- 2>&-
status_is 0 $?
only_whole 0

begins "a closed pipe"
"$program" report trace.dat 2>err | true
status_is 5 "${PIPESTATUS[0]}"
says "trace-cmd: write failed"

begins "a pipe that is closed after the first line"
"$program" report trace.dat 2>err | head -n 1 >out
status_is 5 "${PIPESTATUS[0]}"
says "trace-cmd: write failed"
begins_whole

begins "names that are none"
for name in "" missing.dat missing/trace.dat trace.dat/x "$(printf 'x%.0s' $(seq 5000))"; do
    "$program" report "$name" >out 2>err
    status_is 4 $?
    says "trace-cmd: $name: read failed"
    [ ! -s out ] || wrong "an output"
done

# cannot_read WORD ..: the last word names what cannot be read.
cannot_read() {
    tail -c +1 trace.dat | timeout 20 "$program" "$@" >out 2>err
    status_is 4 $?
    says "trace-cmd: ${!#}: read failed"
    [ ! -s out ] || wrong "an output"
    [ -z "$(ls new)" ] || wrong "new files"
}
begins "what is no regular file: a folder, a pipe without and with a writer, a device"
mkfifo pipe
for name in new pipe /dev/stdin /dev/null /dev/zero; do
    cannot_read report "$name"
    cannot_read dump "$name"
    cannot_read split -o new/p -i "$name"
    cannot_read restore -o new/r -i trace.dat "$name"
done
rm -f pipe

begins "a terminal"
python3 - "$program" >out 2>err <<'END'
import os, pty, subprocess, sys
_, terminal = pty.openpty()
name = os.ttyname(terminal)
with open("terminal", "w") as file:
    file.write(name)
sys.exit(subprocess.run([sys.argv[1], "report", name], timeout=20).returncode)
END
status_is 4 $?
says "trace-cmd: $(cat terminal): read failed"
[ ! -s out ] || wrong "an output"
rm -f terminal

begins "new names that are none"
for base in missing/p trace.dat/p "$(printf 'x%.0s' $(seq 300))"; do
    "$program" split -i trace.dat -o "$base" 2>err
    status_is 5 $?
    says "trace-cmd: write failed"
done

begins "a folder stands under the second new name"
mkdir new/p.2
"$program" split -i trace.dat -e 50 -r -o new/p 2>err
status_is 5 $?
says "trace-cmd: write failed"
cmp -s new/p.1 clean/p.1 || wrong "p.1 is not whole"
found=$(cd new && echo *)
[ "$found" = "p.1 p.2" ] || wrong "the folder has $found"

if [ "$(id -u)" = 0 ]; then
    as_nobody="setpriv --reuid=65534 --regid=65534 --clear-groups"
else
    as_nobody=""
fi
if $as_nobody test -x "$program"; then
    begins "no permission to read"
    cp trace.dat locked.dat
    chmod 000 locked.dat
    $as_nobody "$program" report locked.dat >out 2>err
    status_is 4 $?
    says "trace-cmd: locked.dat: read failed"
    rm -f locked.dat

    begins "no permission to write into a folder"
    chmod 555 new
    $as_nobody "$program" split -i trace.dat -o new/p 2>err
    status_is 5 $?
    says "trace-cmd: write failed"
    only_whole 0
    chmod 755 new
else
    echo "passed over: no permission (another user cannot run $program)"
fi

# The program waits in a write to the pipe while the file is cut: the first byte comes with the first 64 KiB, which fill the pipe.
begins "a file that shrinks while it is read"
cp trace.dat shrinks.dat
mkfifo slow
"$program" report shrinks.dat >slow 2>err &
runs=$!
exec 3<slow
IFS= read -r -n 1 first <&3
truncate -s 20000 shrinks.dat
{ printf '%s' "$first" && cat <&3; } >out
exec 3<&-
wait $runs
status_is 4 $?
says "trace-cmd: shrinks.dat: read failed"
begins_whole
[ -s out ] || wrong "no output"
rm -f slow

# moves_the_folder: the folder of a split goes away while it is at work; it may have ended before that, on a busy machine.
moves_the_folder() {
    rm -rf new
    mkdir new
    "$program" split -i trace.dat -e 1 -r -o new/p 2>err &
    runs=$!
    while [ ! -e new/p.3 ] && kill -0 $runs 2>/dev/null; do :; done
    mv new gone
    wait $runs
    status=$?
    mv gone new
    [ $status != 0 ]
}
begins "a folder that goes away during a split"
moves_the_folder || moves_the_folder || moves_the_folder
status_is 5 $status
says "trace-cmd: write failed"
[ "$(find new -name '*.part' | wc -l)" -le 1 ] || wrong "more than one part stays"
for file in new/p.?; do
    "$program" dump --validate "$file" >out 2>err
    status_is 0 $?
done

# The least limit under which the program starts, and only misses its file.
limit=1500
until (ulimit -v $limit && exec "$program" report missing.dat) >/dev/null 2>&1; [ $? = 4 ] || [ $limit -gt 20000 ]; do
    limit=$((limit + 100))
done

begins "a limit of $limit KiB of memory"
(ulimit -v $limit && exec "$program" report trace.dat) >out 2>err
status_is 6 $?
says "trace-cmd: out of memory"
[ ! -s out ] || wrong "an output"
(ulimit -v $limit && exec "$program" split -i trace.dat -o new/p) 2>err
status_is 6 $?
only_whole 0
[ -z "$(ls new)" ] || wrong "new files"

# A size of four billion in front of a short text takes no memory.
begins "a limit of memory, and a text that the file does not have"
head -c 67 <(printf '\x17\x08\x44tracing6\0\0\x08\0\x10\0\0header_page\0\0\0\0\0\0\0\0\0header_event\0\0\0\0\0\0\0\0\0\0\0\0\0\0\0\0\0') >large.dat
printf '\xff\xff\xff\xff1 T a\n' >>large.dat
(ulimit -v $((limit + 1000)) && exec "$program" report large.dat) >out 2>err
status_is 2 $?
says "trace-cmd: large.dat: file ends early at byte 77"

# The kernel ends a program that passes the limit, unless the program was started with that signal ignored.
begins "a limit of file size"
(ulimit -f 100 && trap '' XFSZ && exec "$program" split -i trace.dat -e 50 -r -o new/p) 2>err
status_is 5 $?
says "trace-cmd: write failed"
only_whole 0
(ulimit -f 100 && trap '' XFSZ && exec "$program" report trace.dat) >out 2>err
status_is 5 $?
cmp -s -n "$(stat -c %s out)" out whole || wrong "the output is not the beginning of the report"
{ (ulimit -f 100 && exec "$program" split -i trace.dat -e 50 -r -o new/p) 2>err; } 2>/dev/null
status_is 153 $?
only_whole 1

if mkdir full && mount -t tmpfs -o size=1m none full 2>/dev/null; then
    begins "a full file system"
    "$program" split -i trace.dat -e 50 -r -o full/p 2>err
    status_is 5 $?
    says "trace-cmd: write failed"
    cp -r full/. new
    only_whole 0
    umount full
else
    echo "passed over: a full file system (it cannot be mounted here)"
fi

# has_begun: the split has made something, or has ended.
has_begun() {
    local file
    while kill -0 $runs 2>/dev/null; do
        for file in new/*; do
            [ ! -e "$file" ] || return
        done
    done
}

# With job control, since else an interrupt is ignored by what runs beside the script.
set -m
ended=0
for signal in INT TERM KILL; do
    for wait in 0 0.001 0.002 0.004 0.008 0.012 0.016 0.024; do
        begins "$signal $wait seconds after a split has begun"
        "$program" split -i trace.dat -e 5 -r -o new/p 2>err &
        runs=$!
        has_begun
        sleep $wait
        kill -$signal $runs 2>/dev/null
        wait $runs 2>/dev/null
        [ $? -le 128 ] || ended=$((ended + 1))
        only_whole 1 small
    done
done
[ $ended != 0 ] || wrong "no signal came in time"

[ $failed = 0 ] && echo "$cases cases, each as it must be; $ended splits were ended by a signal"
exit $failed
