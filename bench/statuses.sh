#!/bin/sh
# Tries the built program on streams and disks that fail and on input that is no request: status and line on standard error. Then the
# same of `cluster`, where it adds something. Each try has a working folder of its own for its journals.
top=$(cd "$(dirname "$0")/.." && pwd) || exit 1
program=$top/crates/cluster_main/out/cluster_main
work=$(mktemp -d) || exit 1
trap 'rm -rf "$work"' EXIT
xxd -r -p "$top/examples/insert.hex" > "$work/request" || exit 1
# {insert: "c", $db: "d"} with the sequence documents: {_id: 1}, {_id: "a"}, {_id: true}
body='\0\036\0\0\0\002insert\0\002\0\0\0c\0\002$db\0\002\0\0\0d\0\0'
sequence='\001\067\0\0\0documents\0\016\0\0\0\020_id\0\001\0\0\0\0\020\0\0\0\002_id\0\002\0\0\0a\0\0\013\0\0\0\010_id\0\001\0'
printf '\153\0\0\0\001\0\0\0\0\0\0\0\335\007\0\0\0\0\0\0'"$body$sequence" > "$work/three"
# the same with moreToCome
printf '\153\0\0\0\001\0\0\0\0\0\0\0\335\007\0\0\002\0\0\0'"$body$sequence" > "$work/silent"
# {isMaster: 1} to admin.$cmd by OP_QUERY
printf '\072\0\0\0\001\0\0\0\0\0\0\0\324\007\0\0\0\0\0\0admin.$cmd\0\0\0\0\0\377\377\377\377\023\0\0\0\020isMaster\0\001\0\0\0\0' > "$work/greeting"
# a message of which bit 0 of the flags, the checksum's, is set
printf '\024\0\0\0\001\0\0\0\0\0\0\0\335\007\0\0\001\0\0\0' > "$work/flags"
: > "$work/nothing"
printf '\001\154\334\002\0\0\0\0\0\0\0\0\335\007\0\0' > "$work/long"
failed=0
mkdir "$work/first" && (cd "$work/first" && "$top/cluster" sim < /dev/null) && rm -r "$work/first" || { echo "statuses: the program is not built"; exit 1; }
advice_5='cluster: is another run using this folder? then use a new one; else look at the disk: full, read-only or faulty'
advice_6='cluster: a node*.journal is damaged, or of another node: did the folder begin with other numbers (--shards, --routers)? see docs/OPERATING.md'

# fresh: goes to a new working folder
fresh() {
    rm -rf "$work/at" && mkdir "$work/at" && cd "$work/at" || exit 1
}

# check NAME STATUS LINE, with the streams of the call
check() {
    name=$1; want_status=$2; want_line=$3; got_status=$4
    got_line=$(cat "$work/errors")
    if [ "$got_status" = "$want_status" ] && [ "$got_line" = "$want_line" ]; then
        echo "ok: $name"
    else
        echo "wrong: $name: status $got_status and '$got_line', wanted $want_status and '$want_line'"
        failed=1
    fi
}

# tells NAME FILE HEX: the file has these bytes
tells() {
    if xxd -p "$2" | tr -d '\n' | grep -q "$3"; then
        echo "ok: $1"
    else
        echo "wrong: $1: no $3 in $2"
        failed=1
    fi
}

# leaves_none NAME: there is no file in the working folder
leaves_none() {
    if [ -z "$(ls -A)" ]; then
        echo "ok: no file left by $1"
    else
        echo "wrong: files left by $1: $(ls -A | tr '\n' ' ')"
        failed=1
    fi
}

# touches_none NAME: there is no reply, and no byte in a journal
touches_none() {
    if [ ! -s "$work/reply" ] && [ -z "$(cat node0?.journal | xxd -p)" ]; then
        echo "ok: nothing served or written beside $1"
    else
        echo "wrong: a reply or bytes in a journal beside $1"
        failed=1
    fi
}

fresh; "$program" pipe < "$work/nothing" > "$work/reply" 2> "$work/errors"; check "empty input" 0 "" $?
fresh; "$program" pipe < "$work/request" > "$work/reply" 2> "$work/errors"; check "one insert" 0 "" $?
fresh; "$program" pipe < "$work/three" > "$work/reply" 2> "$work/errors"; check "an insert of three documents" 0 "" $?
tells "the reply to three documents" "$work/reply" 106e000300000010
fresh; "$program" pipe < "$work/silent" > "$work/reply" 2> "$work/errors"; check "an insert without a reply" 0 "" $?
[ ! -s "$work/reply" ] && [ -s node00.journal ] || { echo "wrong: a reply that is not wanted, or no record"; failed=1; }
tells "the shard's journal of an insert without a reply" node01.journal 025f69640002000000610000
fresh; "$program" pipe < "$work/silent" > /dev/full 2> "$work/errors"; check "no reply to a full device" 0 "" $?
fresh; "$program" pipe < "$work/greeting" > "$work/reply" 2> "$work/errors"; check "a greeting" 0 "" $?
tells "the reply to a greeting" "$work/reply" 0869736d617374657200
fresh; cat "$work/request" "$work/flags" | "$program" pipe > "$work/reply" 2> "$work/errors"
check "an insert and flags that are refused" 9 "cluster: bad input" $?
tells "the reply before flags that are refused" "$work/reply" 106e0001000000
fresh; "$program" pope < "$work/nothing" > "$work/reply" 2> "$work/errors"; check "bad words" 2 "cluster: bad words" $?
leaves_none "bad words"
fresh; "$program" < "$work/nothing" > "$work/reply" 2> "$work/errors"; check "no words" 2 "cluster: bad words" $?
leaves_none "no words"
fresh; "$program" "$(printf 'pipe\377')" < "$work/nothing" > "$work/reply" 2> "$work/errors"; check "a word that is not UTF-8" 2 "cluster: bad words" $?
leaves_none "a word that is not UTF-8"
fresh; "$program" pipe < "$work" > "$work/reply" 2> "$work/errors"; check "a source that can't be read" 3 "cluster: read failed" $?
fresh; "$program" pipe < "$work/request" > /dev/full 2> "$work/errors"; check "a full device" 4 "cluster: write failed" $?
fresh; "$program" pipe < "$work/request" 2> "$work/errors" >&-; check "a closed output" 4 "cluster: write failed" $?
fresh; "$program" pipe <&- > "$work/reply" 2> "$work/errors"; check "a closed input" 3 "cluster: read failed" $?
: > "$work/errors"
fresh; "$program" pipe < "$work/long" > "$work/reply" 2>&-; check "a closed error stream" 9 "" $?
[ "$(cat node00.journal node01.journal node02.journal | xxd -p)" = 0000010a000000000000000130010000000000000000 ] ||
    { echo "wrong: bytes of a closed stream in a journal"; failed=1; }
fresh; { sh -c '"$1" pipe < "$2" 2> "$3"; echo $? > "$4"' - "$program" "$work/request" "$work/errors" "$work/status"; } | :
check "a pipe without a reader" 4 "cluster: write failed" "$(cat "$work/status")"
fresh; "$program" pipe < "$work/long" > "$work/reply" 2> "$work/errors"; check "a length of 48,000,001" 9 "cluster: bad input" $?
fresh; printf '\0' > node02.journal
"$program" pipe < "$work/request" > "$work/reply" 2> "$work/errors"; check "a journal without a record" 0 "" $?
fresh; printf '\001\0' > node02.journal
"$program" pipe < "$work/request" > "$work/reply" 2> "$work/errors"; check "a damaged journal" 6 "cluster: damaged journal" $?
[ ! -s "$work/reply" ] && [ "$(xxd -p node02.journal)" = 0100 ] || { echo "wrong: a reply, or another damaged journal"; failed=1; }
fresh; "$program" pipe < "$work/request" > "$work/reply" 2> "$work/errors"; check "a first start" 0 "" $?
"$program" pipe < "$work/nothing" > "$work/reply" 2> "$work/errors"; check "a second start on its files" 0 "" $?
tells "two lives of the router" node02.journal 01300100000000000000010a000000000000000130020000000000000000
cp node01.journal "$work/kept"; printf '\001\012\0\0\0\0\0\0\0\001\060\011\0\0\0\0\0\0\0\0' > node02.journal
"$program" pipe < "$work/request" > "$work/reply" 2> "$work/errors"; check "a life that may not follow" 6 "cluster: damaged journal" $?
[ ! -s "$work/reply" ] && cmp -s node01.journal "$work/kept" || { echo "wrong: a reply, or another journal of the shard"; failed=1; }
fresh; mkdir node01.journal
"$program" pipe < "$work/request" > "$work/reply" 2> "$work/errors"; check "a journal that is a folder" 5 "cluster: disk failed" $?
# Writes to the null device succeed and syncs of it fail: no clause sees whether a real file is synced.
for journal in node00.journal node01.journal node02.journal; do
    fresh; ln -s /dev/null $journal
    "$program" pipe < "$work/request" > "$work/reply" 2> "$work/errors"; check "failing syncs of $journal" 5 "cluster: disk failed" $?
    [ ! -s "$work/reply" ] || { echo "wrong: a reply whose journal was not synced"; failed=1; }
done
fresh; "$program" pipe < "$work/request" > "$work/reply" 2> "$work/errors"
"$program" pipe < "$work/request" > "$work/reply" 2> "$work/errors"; check "a second start in one folder" 0 "" $?
tells "11000 for the key of the first start" "$work/reply" f82a0000
for journal in node00.journal node01.journal node02.journal; do
    fresh; : > $journal
    flock $journal "$program" pipe < "$work/request" > "$work/reply" 2> "$work/errors"; check "a lock on $journal" 5 "cluster: disk failed" $?
    touches_none "a lock on $journal"
done
fresh; : > node00.journal; ln node00.journal node02.journal
"$program" pipe < "$work/request" > "$work/reply" 2> "$work/errors"; check "two journals that are one file" 5 "cluster: disk failed" $?
touches_none "two journals that are one file"

# The same of `cluster`: arguments that it does not know, and what it adds.
# first_line: keeps the first line on standard error alone
first_line() { head -n 1 "$work/errors" > "$work/first" && mv "$work/first" "$work/errors"; }
usage='usage: cluster pipe      serves one MongoDB connection on standard input and output'
fresh; "$top/cluster" pope < "$work/nothing" > "$work/reply" 2> "$work/errors"; got=$?; first_line; (exit $got); check "usage of bad words" 2 "$usage" $?
fresh; "$top/cluster" < "$work/nothing" > "$work/reply" 2> "$work/errors"; got=$?; first_line; (exit $got); check "usage of no words" 2 "$usage" $?
fresh; "$top/cluster" pipe sim < "$work/nothing" > "$work/reply" 2> "$work/errors"; got=$?; first_line; (exit $got); check "usage of two words" 2 "$usage" $?
leaves_none "usage"
fresh; "$top/cluster" pipe < "$work/request" > "$work/reply" 2> "$work/errors"; check "one insert by cluster" 0 "" $?
tells "the reply by cluster" "$work/reply" 106e0001000000
"$top/cluster" pipe < "$work/request" > "$work/reply" 2> "$work/errors"; check "a second start by cluster" 0 "" $?
printf '\001\0' > node00.journal; "$top/cluster" pipe < "$work/request" > "$work/reply" 2> "$work/errors"
check "advice after a damaged journal" 6 "cluster: damaged journal
$advice_6" $?
fresh; mkdir node01.journal; "$top/cluster" pipe < "$work/request" > "$work/reply" 2> "$work/errors"
check "advice after a journal that is a folder" 5 "cluster: disk failed
$advice_5" $?
fresh; "$top/cluster" pipe < "$work/long" > "$work/reply" 2> "$work/errors"; check "no advice after bad input" 9 "cluster: bad input" $?
fresh; "$top/cluster" pipe <&- > "$work/reply" 2> "$work/errors"; check "a closed input of cluster" 3 "cluster: read failed" $?
# Signals are passed on.
for signal in TERM:143 INT:130 HUP:129; do
    fresh; mkfifo "$work/input"; env --default-signal=INT "$top/cluster" pipe < "$work/input" > "$work/reply" 2> "$work/errors" & launcher=$!
    exec 8> "$work/input"; sleep 1; kill -${signal%:*} $launcher; wait $launcher; got=$?
    exec 8>&-; rm "$work/input"
    (exit $got); check "a signal ${signal%:*} to cluster" ${signal#*:} "" $?
    for journal in node00.journal node01.journal node02.journal; do
        flock -n $journal true || { echo "wrong: $journal is locked after a signal ${signal%:*}"; failed=1; }
    done
done
exit $failed
