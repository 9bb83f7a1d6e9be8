#!/bin/bash
# Each line of the log that a person can bring about from a shell and that no other file here holds: of substations that answer badly,
# of controls that are refused or not answered, of files that can't be had, of stores that fail.
. "$(dirname "${BASH_SOURCE[0]}")/../expect.bash"
. "$top/tests/networks.bash"
trap 'gone; kill "${concentrating-}" 2>/dev/null; rm -rf "$room"' EXIT
chmod 755 "$room"

port=$(free)
# (a port for each substation, one after the other, below those that connections get by themselves)
below=$(python3 -c '
import random, socket
def is_free(port):
    with socket.socket() as taken:
        try:
            taken.bind(("127.0.0.1", port))
        except OSError:
            return False
    return True
first = random.randrange(12_000, 30_000, 20)
print(next(port for port in range(first, 32_000, 20) if all(is_free(port + k) for k in range(20))))')
patience=$((1500 * slower / 2))
kinds=(float classless refusing overflown elsewhere leaving odd select-4 operate-6 select-none operate-none select-odd operate-odd 1 numbered later)
controls=(select-4 operate-6 select-none operate-none select-odd operate-odd)
plan plan.toml 2 ${#kinds[@]} response_ms=$patience
sed -i 's/^analog = .*/analog = [1, 0]/' plan.toml
words="--journal journal.db --controls above.db --port $port"
many='[4096, 4096, 4096, 4096, 4096, 4096, 4096, 4096, 4096]'

# Nobody there: the stores are made, and a control for each substation that answers one badly is put into the book
concentrates --new --every 1 --rounds 1
ended makes-its-stores 0 'round 1 rows 0'
first=7
for ((number = 0; number <= ${#controls[@]}; number++)); do
    echo "INSERT INTO control (target, kind, point, code, count, on_ms, off_ms, value, state, status) VALUES ($((first + number)), 0, 0, 1, 1, 100, 0, 0, 0, 0);"
done | sqlite3 below.db
for ((number = 0; number < ${#kinds[@]}; number++)); do substation "$number" "${kinds[number]}"; done
concentrates --every 1 --rounds 4
ended asks-who-answers-badly 0 $'round 1 rows 1\nround 2 rows 1\nround 3 rows 1\nround 4 rows 1'
# of NUMBER NAME LINES: what is said of this substation in all rounds
cp err whole
of() {
    { head -n 1 whole && grep -E "^[^ ]+ substation $1: " whole; } >err
    logs "$2" "$(sed "s/^/substation $1: /" <<<"$3")"
}
of 0 says-which-object-is-not-known 'response refused: 30.5 at octet 4 is not in the profile'
of 1 says-that-an-event-has-no-class 'response refused: event of analog 1, which has class 0 in the plan'
of 2 says-that-a-read-is-refused 'refuses the READ: OBJECT_UNKNOWN
no longer refuses the READ: OBJECT_UNKNOWN'
of 3 says-that-events-were-lost-there 'indicates EVENT_BUFFER_OVERFLOW: events were lost there
no longer indicates EVENT_BUFFER_OVERFLOW'
of 4 says-who-answers-in-place 'lost, no good answer since the start: frames came from 99 to 2; this asks 14 as 2'
of 5 says-that-a-connection-ended 'lost, no good answer since the start: the connection ended before the answer'
of 6 says-what-is-wrong-with-an-answer 'response refused: QualifierUnknown at octet 4'
of 7 says-that-a-select-is-refused 'control 1: SELECT refused (status 4 NOT_SUPPORTED)'
of 8 says-that-an-operate-is-refused 'control 2: selected
control 2: OPERATE refused (status 6 HARDWARE_ERROR)'
of 9 says-that-a-select-is-not-answered "control 3: OPERATE not sent, since its SELECT has no answer that stands: it is selected again
lost, no good answer since TIME: no answer in $patience ms
control 3: SELECT sent again"
of 10 says-that-an-operate-is-not-answered "control 4: selected
control 4: OPERATE not answered: whether it was operated is not known, and it is not sent again
lost, no good answer since TIME: no answer in $patience ms
back after LONG and 1 try"
of 11 says-that-a-select-is-answered-by-something-else 'control 5: SELECT answered with something else than the control'
of 12 says-that-an-operate-is-answered-by-something-else 'control 6: selected
control 6: OPERATE answered with something else than the control'
of 13 says-that-a-control-was-operated 'control 7: selected
control 7: operated (status 0 SUCCESS)'
of 14 says-which-sequence-number-came 'lost, no good answer since the start: a response with sequence number 2 came, where 0 is awaited'
of 15 says-that-a-response-has-no-first-fragment 'lost, no good answer since the start: a response without FIR came, where the first fragment is awaited'
# what the book says then, in the words of `dnp rows`
expect says-what-became-of-each 0 '1 target 7 block 0 1 1 100 0 refused by the substation (status 4 NOT_SUPPORTED)
2 target 8 block 0 1 1 100 0 refused by the substation (status 6 HARDWARE_ERROR)
3 target 9 block 0 1 1 100 0 pending: no OPERATE was sent to the substation yet
4 target 10 block 0 1 1 100 0 spent: sent to the substation, and its answer is not known
5 target 11 block 0 1 1 100 0 refused by the substation, or answered with something else (status 3 FORMAT_ERROR)
6 target 12 block 0 1 1 100 0 refused by the substation, or answered with something else (status 3 FORMAT_ERROR)
7 target 13 block 0 1 1 100 0 operated by the substation (status 0 SUCCESS)' '' rows --controls below.db --of concentrator
gone

# A queue whose lanes are full: as it begins, with how many, and as it ends
plan plan.toml 1 1 queue='[3, 3, 3, 3, 3, 3, 3, 3, 3]' queue2="$many"
rm -f queue.db* below.db*
substation 0 1
concentrates --new --every $((1000 * slower)) --rounds 8
while { [ ! -e rounds ] || [ "$(wc -l <rounds)" -lt 5 ]; } && kill -0 "$concentrating" 2>/dev/null; do sleep 0.05; done
# (that it comes in the fifth round or in one of the two after it is up to its stores)
polls takes-what-a-full-lane-holds 0 'rows 3' --new
ended polls-on-with-a-full-lane 0 $'round 1 rows 1\nround 2 rows 1\nround 3 rows 1\nround 4 rows 1\nround 5 rows 1\nround 6 rows 1\nround 7 rows 1\nround 8 rows 1'
grep -v -e ' connected$' -e ' ended, ' err >full && mv full err
dropped=$(sed -n 's/.*: \([0-9]*\) events were dropped$/\1/p' err)
logs says-when-a-lane-is-full "centre 1: a lane of the queue for it is full, and drops its oldest events: 1 event so far
centre 1: no lane of the queue for it is full any more: $dropped events were dropped"
holds says-how-many-were-dropped journal.db 'SELECT min(value) - 1 FROM journal' "$dropped"
gone

# Files that can't be had: the folder is missing, or may not be written; the file is one, or may not be read, or not written
# without NAME JOURNAL CONTROLS SAID ARGS..: who may do no more than others has no such files, and is told why
nobody=()
[ "$(id -u)" != 0 ] || nobody=(setpriv --reuid 65534 --regid 65534 --clear-groups)
without() {
    local got=0
    "${nobody[@]}" "$program" centre --plan plan.toml --journal "$2" --controls "$3" --port "$port" "${@:5}" >out 2>err </dev/null || got=$?
    judge "begins-with-no-store:$1" 3 '' "$got"
    logs "tells-why-there-is-no-store:$1" "$4"
}
chmod 644 plan.toml
mkdir folder.db locked && chmod 555 locked
touch private.db && chmod 0 private.db
cp journal.db locked.db && chmod 444 locked.db
without in-no-folder none/journal.db none/above.db 'none/journal.db: No such file or directory (os error 2): make its folder first' --new
without in-a-locked-folder locked/journal.db locked/above.db \
    'locked/journal.db: Permission denied (os error 13): the program has to be allowed to write in its folder' --new
without that-may-not-be-read private.db locked/above.db 'private.db: Permission denied (os error 13): the program has to be allowed to read and to write it'
without that-may-not-be-written locked.db locked/above.db 'locked.db: Permission denied (os error 13): the program has to be allowed to read and to write it'
# (it may be read and written, and its log not made)
mkdir half && cp journal.db half/journal.db && chmod 666 half/journal.db && chmod 555 half
without that-has-no-log half/journal.db locked/above.db \
    'half/journal.db: unable to open database file: the program has to be allowed to write in its folder, where its log is made'
without where-a-folder-is folder.db locked/above.db 'folder.db: Is a directory (os error 21)'
# what is no database is left as it is, and nothing beside it
for new in '' --new; do
    cp plan.toml kept.toml
    expect "takes-no-plan-for-a-queue:$new" 1 '' '' concentrate --plan plan.toml --queue kept.toml --controls next.db --port "$port" --below "$below" $new
    logs "tells-that-a-plan-is-no-queue:$new" "kept.toml: no queue: file is not a database that obeys its schema: give the file of a queue, or with '--new' one that isn't there"
    cmp -s plan.toml kept.toml && [ -z "$(find . -name 'kept.toml?*' -o -name 'next.db*')" ] && echo "ok leaves-a-plan-alone:$new" || echo "FAILED leaves-a-plan-alone:$new"
done

# A disk that is full, for which a limit on the size of files stands in: the program says that it is its own
rm -f queue.db* below.db*
substation 0 40
concentrates --new --every $((1000 * slower)) --rounds 8
listens "$port"
for issue in '' '0 trip 0 1s'; do
    full="this program: a store's device failed: see whether there is room on the disks of its files"
    store='journal.db: the journal could not be read or written: see whether there is room on its disk'
    if [ -n "$issue" ]; then
        full="the control was not issued: the book's device failed: see whether there is room on its disk"
        store='above.db: the book of controls could not be read or written: see whether there is room on its disk'
    fi
    got=0
    (trap '' XFSZ && ulimit -f 20 && exec "$program" centre --plan plan.toml $words ${issue:+--issue "$issue"}) >out 2>err </dev/null || got=$?
    sed -i '/code 129 = /d' err
    : >out
    judge "fails-where-its-disk-is-full:$issue" 3 '' "$got"
    logs "tells-that-its-own-disk-is-full:$issue" "$full
$store"
done
kill "$concentrating" 2>/dev/null
wait "$concentrating" 2>/dev/null
gone

# A book and a journal of which all numbers are used
plan plan.toml 1 1
last=4611686018427387904
sqlite3 above.db "INSERT INTO control VALUES ($last, 0, 0, 0, 1, 1, 0, 0, 0, 2, 0)"
polls issues-nothing-without-a-number 3 '' --issue '0 trip 0 1s'
sed -i '/code 129 = /d' err
logs tells-that-no-number-is-left 'the control was not issued: the book has no number left'
sqlite3 above.db "DELETE FROM control; UPDATE sqlite_sequence SET seq = 0"
sqlite3 journal.db "INSERT INTO journal VALUES ($last, 2, 0, 1, 5, NULL)"
substation 0 1
rm -f queue.db* below.db*
concentrates --new
listens "$port"
polls keeps-nothing-without-a-number 3 'rows 0'
logs tells-that-a-store-has-no-number-left 'this program: a store has no number left'
ended has-done-its-round 0 'round 1 rows 1'

# The ends of connections of centres: one that is reset, by the clock and at the pace of the centres, and one that stands at the end
# holds_on: connects, resets the connection, and connects again for good where that is asked for
holds_on() {
    python3 -c '
import socket, struct, sys, time
def connect():
    return socket.create_connection(("127.0.0.1", int(sys.argv[1])))
first = connect()
time.sleep(0.5)
first.setsockopt(socket.SOL_SOCKET, socket.SO_LINGER, struct.pack("ii", 1, 0))
first.close()
if sys.argv[2:]:
    time.sleep(0.5)
    last = connect()
    last.settimeout(120)
    last.recv(1)
' "$port" "$@"
}
concentrates --every $((500 * slower)) --rounds 4
listens "$port"
holds_on again
ended does-all-its-rounds 0 $'round 1 rows 1\nround 2 rows 1\nround 3 rows 1\nround 4 rows 1'
sed -i -E 's/127\.0\.0\.1:[0-9]+ centre/PEER centre/' err
logs says-how-connections-ended 'PEER centre 1 connected
PEER centre 1 ended, served 0: the stream could not be read: Connection reset by peer (os error 104)
PEER centre 1 connected
PEER centre 1 ended, served 0: all rounds are done'
concentrates
listens "$port"
holds_on
ended serves-a-connection-that-is-reset 0 'round 1 rows 1'
logs says-that-a-connection-was-reset 'centre 1: the stream could not be read: Connection reset by peer (os error 104)'
concentrates
listens "$port"
timeout $((20 * slower)) "$dnp" poll "127.0.0.1:$port" --own 3 --peer 9 --timeout 300 >out 2>err </dev/null
ended serves-who-is-no-centre-of-its 0 'round 1 rows 1'
logs says-whose-frames-came 'centre 1: frames came from 3 to 9; this takes those from 1 to 9'
gone
