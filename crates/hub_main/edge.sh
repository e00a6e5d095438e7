#!/bin/sh
# Plays calls through the built program, most of them refused, and compares its status, standard output and standard
# error with what docs/FORMATS.md says, its examples too. Silent where all is as it says.
#
#     sh crates/hub_main/edge.sh [PROGRAM]
#
# The program is the one that `rt ci` builds and leaves in out/, where no other is named. It wants Python 3 for a terminal.
program=$(realpath "${1:-$(dirname "$0")/out/hub_main}")
cd "$(dirname "$0")" || exit 1
unset LAZBENDIX_PROGRESS
if [ ! -f "$program" ]; then
    echo "edge: there is no built program at $program" >&2
    exit 1
fi
room=$(mktemp -d) || exit 1
trap 'rm -rf "$room"' EXIT
cp "$program" "$room/hub_main" && chmod 755 "$room/hub_main" || exit 1
failed=0

# ends STATUS LINE: the call that was just made ended with this status, wrote nothing on standard output, and this
# line on standard error
ends() {
    printf '%s\n' "$2" >"$room/line"
    if [ "$got" != "$1" ] || [ -s "$room/out" ] || ! cmp -s "$room/line" "$room/err"; then
        echo "edge: $call: status $got and '$(cat "$room/err")', and not $1 and '$2' alone" >&2
        failed=1
    fi
}

# call WORD..: calls the program with these words on $input
call() {
    call="$* < $input"
    printf '%s' "$input" | "$room/hub_main" "$@" >"$room/out" 2>"$room/err"
    got=$?
}

# plays RECORD WORD..: these words on $input end with this record, and nothing on standard error
plays() {
    record=$1
    shift
    call "$@"
    if [ "$got" != 0 ] || [ -s "$room/err" ] || ! cmp -s "$record" "$room/out"; then
        echo "edge: $call: status $got and '$(cat "$room/err")'" >&2
        failed=1
    fi
}

# script INPUT LINE: a replay of this input is refused so
script() {
    input=$1
    call replay
    ends 1 "$2"
}

# words WORD..: these words are of no command
words() {
    call "$@"
    ends 2 words
}

lamp='{"name":"lamp","states":["off","on"],"start":"off"}'
light='{"name":"light","commands":[{"on":"lamp","do":"set","to":"on"}]}'
day() {
    printf '{"safehome":1,"devices":[%s],"routines":[%s],"windows":[%s]}' "$1" "$2" "$3"
}

script '' 'script: not json'
script '{"safehome":1,"dev' 'script: not json'
script '[]' 'script: shape top'
script '{"safehome":3,"devices":[],"routines":[],"windows":[]}' 'script: bad version 3'
script "$(day "$lamp,$lamp" '' '')" 'script: double name device 2'
script "$(day '{"name":"Lamp","low":0,"high":1,"start":0}' '' '')" 'script: bad name device 1'
script "$(day '{"name":"heat","low":10,"high":30,"start":31}' '' '')" 'script: bad state device 1'
script "$(day "$lamp" '{"name":"light","commands":[{"on":"fan","do":"set","to":"on"}]}' '')" \
    'script: unknown name command 1.1'
script "$(day "$lamp" '{"name":"light","commands":[{"on":"lamp","do":"load","ms":3600001}]}' '')" \
    'script: too many ms 3600001 of 3600000'
script "$(day "$lamp" "$light" '{"at":"tonight","runs":[]}')" 'script: bad time window 1'
script "$(day "$lamp" "$light" '{"at":"2021-04-26T07:00:00","turns":[1,2],"runs":[{"routine":"light"}]}')" \
    'script: bad turn turn 1.2'
script "$(day "$lamp" "$light" '{"at":"2021-04-26T07:00:00","runs":[{"routine":"light","follows":1}]}')" \
    'script: bad follow run 1.1'

input=$(day "$lamp" "$light" '{"at":"2021-04-26T07:00:00","runs":[{"routine":"light"}]}')
words
words Replay
words replay --mod gsv
words replay --model
words replay --model gsv --model gsv
words replay --model gsv --scheduler jit
words replay --scheduler timeline --model wv
words replay --
words replay --help
words check --trace
words trial 007
words rooms --trace
words rooms --model wv
words keep --mod ev
words "$(printf 'replay\377')"
words replay "$(printf '\377')"

call check
ends 7 'check: window 0 head'
words run twice
words watch twice
words watch --progress
words keep twice
words keep --kept
words run --model wv --model wv

# zeros COUNT WORD..: calls the program with these words on so many bytes of zero
zeros() {
    count=$1
    shift
    call="$* < $count zeros"
    head -c "$count" /dev/zero | "$room/hub_main" "$@" >"$room/out" 2>"$room/err"
    got=$?
}

zeros 50000000 replay
ends 1 'script: too many bytes 4194305 of 4194304'
zeros 50000000 run
ends 1 'script: too many bytes 4194305 of 4194304'
# without a line `%%` all of them are the script, which keeps its own limit
zeros 50000000 check
ends 1 'script: too many bytes 4194305 of 4194304'
zeros 67108865 check
ends 1 'script: too many bytes 67108865 of 67108864'

# a trial reads nothing, nor does a call of refused words: they end the same where there is no standard input
call='Replay of no standard input'
"$room/hub_main" Replay <&- >"$room/out" 2>"$room/err"
got=$?
ends 2 words
call='trial of no standard input'
printf 'trial 2 windows 2 runs 128 committed 128 aborted 0 agree 2\n' >"$room/trial"
"$room/hub_main" trial 2 <&- >"$room/out" 2>"$room/err"
got=$?
if [ "$got" != 0 ] || [ -s "$room/err" ] || ! cmp -s "$room/trial" "$room/out"; then
    echo "edge: $call: status $got and '$(cat "$room/err")'" >&2
    failed=1
fi
call='replay of no standard input'
"$room/hub_main" replay <&- >"$room/out" 2>"$room/err"
got=$?
ends 3 read
call='replay of a folder'
"$room/hub_main" replay <"$room" >"$room/out" 2>"$room/err"
got=$?
ends 3 read

: >"$room/out"
for word in replay run watch rooms; do
    call="$word to no standard output"
    printf '%s' "$input" | "$room/hub_main" "$word" >&- 2>"$room/err"
    got=$?
    ends 4 write
    if [ -c /dev/full ]; then
        call="$word to a full device"
        printf '%s' "$input" | "$room/hub_main" "$word" >/dev/full 2>"$room/err"
        got=$?
        ends 4 write
    fi
    # the reader of the pipe has ended before the program begins
    mkfifo "$room/pipe"
    : <"$room/pipe" &
    exec 4>"$room/pipe"
    wait $!
    call="$word to a pipe that nobody reads"
    printf '%s' "$input" | "$room/hub_main" "$word" >&4 2>"$room/err"
    got=$?
    exec 4>&-
    rm "$room/pipe"
    ends 4 write
done

# where nothing can be told, the status tells it
: >"$room/err"
call='Replay with no standard error'
"$room/hub_main" Replay 2>&- >"$room/out"
if [ $? != 2 ] || [ -s "$room/out" ]; then
    echo "edge: $call" >&2
    failed=1
fi

# run with threads the day has the record of its replay, since it has one run; so it has by the other schedulers, but
# for the line that names them
plays stdout replay
plays stdout run
for scheduler in jit timeline; do
    sed "s/^model ev fcfs\$/model ev $scheduler/" stdout >"$room/record"
    plays "$room/record" replay --scheduler "$scheduler"
    plays "$room/record" run --scheduler "$scheduler"
done

# the devices are down where the script says so, in a replay and in a run: a day in which some fail, with its trace, and
# one of a run whose only device is down in its first call
kept=$input
input=$(cat ../../examples/failing.json)
plays ../../examples/failing.record replay --trace
input=$(day '{"name":"lamp","states":["off","on"],"start":"off","down":[[1,2]]}' "$light" \
    '{"at":"2021-04-26T07:00:00","runs":[{"routine":"light"}]}')
printf '%s\n' 'safehome day' 'model ev fcfs' 'window 1 2021-04-26T07:00:00' 'run 1 light aborted must 1' \
    'order fail(lamp)' 'home lamp=off!' 'total windows 1 runs 1 committed 0 aborted 1' >"$room/record"
plays "$room/record" replay
plays "$room/record" run

# a day of one room has the record of its run; the devices of a room are down where the script says so
plays "$room/record" rooms
input=$kept
plays stdout rooms

# hubs of two rooms print one order, in which room stands behind room, and the home's numbers
pair() {
    printf '{"name":"hall_lamp","states":["off","on"],"start":"off"},{"name":"bed_lamp","states":["off","on"],"start":"off"}'
}
routine() {
    printf '{"name":"%s","commands":[{"on":"%s","do":"set","to":"on"}]}' "$1" "$2"
}
two="$(routine a bed_lamp),$(routine b hall_lamp)"
input=$(day "$(pair)" "$two" '{"at":"2021-04-26T07:00:00","runs":[{"routine":"a"},{"routine":"b"}]}')
printf '%s\n' 'safehome day' 'model ev fcfs' 'window 1 2021-04-26T07:00:00' 'run 1 a committed .' 'run 2 b committed .' \
    'order 2 1' 'home hall_lamp=on bed_lamp=on' 'total windows 1 runs 2 committed 2 aborted 0' >"$room/record"
plays "$room/record" rooms
sed 's/^model ev fcfs$/model gsv fcfs/' "$room/record" >"$room/strict"
plays "$room/strict" rooms --model gsv
printf 'agrees\n' >"$room/agrees"
input="$input
%%
$(cat "$room/record")
"
plays "$room/agrees" check
input=$(day "$(pair)" "$two" '{"at":"2021-04-26T07:00:00","runs":[{"routine":"a"},{"routine":"b","follows":1}]}')
call rooms
ends 11 'cross follow 1.2'
input=$(day "$(pair)" \
    '{"name":"a","commands":[{"on":"hall_lamp","do":"set","to":"on"},{"on":"bed_lamp","do":"set","to":"on"}]}' \
    '{"at":"2021-04-26T07:00:00","runs":[]},{"at":"2021-04-26T07:05:00","runs":[{"routine":"a"}]}')
call rooms
ends 11 'cross room 2.1'
input='{'
call rooms
ends 1 'script: not json'
input=$kept

# a watched day has the record of its run, and behind it the line of its board; what is read beside it is shown where
# the environment asks for that, on a terminal in one line, and the record and the line of a fault stay as they are
input=$kept
(cat stdout && printf 'board windows 1 runs 1 committed 1 aborted 0\n') >"$room/record"
plays "$room/record" watch
shown='window 1 of 1: 1 committed, 0 aborted'
call='watch with LAZBENDIX_PROGRESS'
printf '%s' "$input" | LAZBENDIX_PROGRESS=1 "$room/hub_main" watch >"$room/out" 2>"$room/err"
got=$?
if [ "$got" != 0 ] || ! cmp -s "$room/record" "$room/out" || [ "$(tail -n 1 "$room/err")" != "$shown" ] ||
    [ -n "$(uniq -d "$room/err")" ] || grep -v '^window [01] of 1: [01] committed, 0 aborted$' "$room/err"; then
    echo "edge: $call: status $got and '$(cat "$room/err")'" >&2
    failed=1
fi

# follows SCRIPT: a day is watched with LAZBENDIX_PROGRESS, and its last line has the counts of the record's total
follows() {
    call="watch of $1 with LAZBENDIX_PROGRESS"
    LAZBENDIX_PROGRESS=1 "$room/hub_main" watch <"$1" >"$room/out" 2>"$room/err"
    got=$?
    total=$(sed -n 's/^total windows \(.*\) runs .* committed \(.*\) aborted \(.*\)$/window \1 of \1: \2 committed, \3 aborted/p' \
        "$room/out")
    if [ "$got" != 0 ] || [ -z "$total" ] || [ "$(tail -n 1 "$room/err")" != "$total" ] || [ -n "$(uniq -d "$room/err")" ]; then
        echo "edge: $call: status $got and '$(cat "$room/err")'" >&2
        failed=1
    fi
}

follows ../../examples/failing.json
follows ../../examples/morning.json
# where only the end is new, nothing is shown again
day "$lamp" '' '' >"$room/empty"
follows "$room/empty"
if [ "$(cat "$room/err")" != 'window 0 of 0: 0 committed, 0 aborted' ]; then
    echo "edge: $call: '$(cat "$room/err")'" >&2
    failed=1
fi
call='watch with LAZBENDIX_PROGRESS to no standard output'
printf '%s' "$input" | LAZBENDIX_PROGRESS=1 "$room/hub_main" watch >&- 2>"$room/err"
got=$?
if [ "$got" != 4 ] || [ "$(tail -n 1 "$room/err")" != write ] || [ "$(grep -c -v '^window ' "$room/err")" != 1 ]; then
    echo "edge: $call: status $got and '$(cat "$room/err")'" >&2
    failed=1
fi
# on a terminal each reading writes one line anew, and the last one ends it; it has lines where the record goes there too
printf '%s' "$input" >"$room/input"
for stream in out terminal; do
    call="watch on a terminal, its record to the $stream"
    python3 - "$room" "$stream" <<'END'
import os, pty, re, subprocess, sys
room, stream = sys.argv[1:]
above, terminal = pty.openpty()
with open(f"{room}/input", "rb") as given, open(f"{room}/out", "wb") as out:
    to = terminal if stream == "terminal" else out
    ran = subprocess.run([f"{room}/hub_main", "watch"], stdin=given, stdout=to, stderr=terminal)
os.close(terminal)
said = b""
try:
    while more := os.read(above, 65536):
        said += more
except OSError:
    pass
line = rb"window [01] of 1: [01] committed, 0 aborted"
last = b"window 1 of 1: 1 committed, 0 aborted"
if stream == "out":
    with open(f"{room}/out", "rb") as out, open(f"{room}/record", "rb") as record:
        well = out.read() == record.read() and re.fullmatch(rb"(\r" + line + rb"\x1b\[K)*\r" + last + rb"\x1b\[K\r\n", said)
else:
    with open(f"{room}/record", "rb") as record:
        shown = [it for it in said.split(b"\r\n") if re.fullmatch(line, it)]
        kept = [it for it in said.split(b"\r\n") if not re.fullmatch(line, it)]
        well = b"\n".join(kept) == record.read() and shown[-1:] == [last]
if ran.returncode or not well:
    print(f"edge: it ended with {ran.returncode}, and the terminal has {said}", file=sys.stderr)
    sys.exit(1)
END
    if [ $? != 0 ]; then
        echo "edge: $call" >&2
        failed=1
    fi
done

# keeps RECORD KEPT: the day is kept in a folder with this file, and ends with this record and status 0
keeps() {
    call="keep with $2 kept"
    printf '%s' "$input" | (cd "$room/kept" && ../hub_main keep) >"$room/out" 2>"$room/err"
    got=$?
    if [ "$got" != 0 ] || [ -s "$room/err" ] || ! cmp -s "$1" "$room/out"; then
        echo "edge: $call: status $got and '$(cat "$room/err")'" >&2
        failed=1
    fi
}

# a day is kept in the file of its folder, and goes on behind its window; a file whose slot is of another window is
# damaged; and where a folder has the file's name the disk fails
mkdir "$room/kept"
sed 's/^model .*/&\nkept 0/' stdout >"$room/record"
keeps "$room/record" 0
printf '%s\n' 'safehome day' 'model ev fcfs' 'kept 1' 'total windows 0 runs 0 committed 0 aborted 0' >"$room/record"
keeps "$room/record" 1
printf '\001\002\000\000\000\001\000\001\000\000\000\001\000' >"$room/kept/home.journal"
call='keep in a damaged file'
printf '%s' "$input" | (cd "$room/kept" && ../hub_main keep) >"$room/out" 2>"$room/err"
got=$?
ends 10 'damaged 1'
rm "$room/kept/home.journal" && mkdir "$room/kept/home.journal"
call='keep in a folder'
printf '%s' "$input" | (cd "$room/kept" && ../hub_main keep) >"$room/out" 2>"$room/err"
got=$?
ends 9 disk

# moments are those of a clock that goes: in the last of sixty windows, behind some hundred threads, it is later than in
# the first
runs='{"routine":"light"}'
runs="$runs,$runs,$runs,$runs"
windows=
for tens in 0 1 2 3 4 5; do
    for ones in 0 1 2 3 4 5 6 7 8 9; do
        windows="$windows${windows:+,}{\"at\":\"2021-04-26T07:$tens$ones:00\",\"runs\":[$runs,$runs]}"
    done
done
input=$(day "$lamp" "$light" "$windows")
call run --trace
sed -n 's/^# arrived 1 at //p' "$room/out" >"$room/moments"
first=$(head -n 1 "$room/moments")
last=$(tail -n 1 "$room/moments")
if [ "$got" != 0 ] || [ -s "$room/err" ] || [ "$(wc -l <"$room/moments")" -ne 60 ] || ! [ "$last" -gt "$first" ]; then
    echo "edge: a run of sixty windows: status $got, from '$first' to '$last'" >&2
    failed=1
fi
input=$kept

# of a script, the line that divides and the record of its day the record agrees
input="$input
%%
$(cat stdout)
"
printf 'agrees\n' >"$room/agrees"
plays "$room/agrees" check
input=$(printf '%s' "$input" | sed 's/^home lamp=on$/home lamp=off/')
call check
ends 7 'check: window 1 device lamp'

# block FIRST: the example of docs/FORMATS.md whose first line this is
block() {
    awk -v first="    $1" '$0 == first { inside = 1 } inside && !/^    / { exit } inside { print substr($0, 5) }' \
        ../../docs/FORMATS.md
}

# the examples of the formats: a script, its record, a refusal, a check
input=$(block '{')
block 'safehome day' >"$room/record"
plays "$room/record" replay --model gsv --trace
input="$input
%%
$(cat "$room/record")
"
plays "$room/agrees" check
script "$(block '{' | sed 's/"on": "lamp"/"on": "lmap"/; s/"at": "[^"]*"/"at": "tonight"/')" \
    'script: unknown name command 1.1'
script '{' 'script: not json'


# the second example of a kept day: its file is cut behind the first window, as a kill in the second one leaves it
mkdir "$room/cut"
cp ../../examples/valve.json "$room/cut/day.json"
for kept_before in 0 1; do
    call="keep of examples/valve.json behind $kept_before"
    (cd "$room/cut" && exec ../hub_main keep) <"$room/cut/day.json" >"$room/out" 2>"$room/err"
    got=$?
    if [ "$kept_before" = 0 ]; then
        head -c 18 "$room/cut/home.journal" >"$room/cut/short" && mv "$room/cut/short" "$room/cut/home.journal"
    fi
done
awk '/^    kept 1/ { part++ } part == 2 { if (!/^    /) exit; print substr($0, 5) }' ../../docs/FORMATS.md >"$room/tail"
tail -n +3 "$room/out" >"$room/came"
if [ "$got" != 0 ] || [ -s "$room/err" ] || ! cmp -s "$room/tail" "$room/came"; then
    echo "edge: $call: status $got and '$(cat "$room/err")'" >&2
    failed=1
fi

plays "$room/trial" trial 2
exit "$failed"
