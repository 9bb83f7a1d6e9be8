#!/bin/bash
# `dnp centre` from the shell: its words, its files, controls, and a concentrator that fails.
. "$(dirname "${BASH_SOURCE[0]}")/../expect.bash"
. "$top/tests/networks.bash"
trap 'gone; kill "${concentrating-}" 2>/dev/null; rm -rf "$room"' EXIT

below=$(free) port=$(free)
plan plan.toml 1 2
words="--journal journal.db --controls above.db --port $port"

# Words, then the plan's file, then its text, then words against the plan, then files
for wrong in '' '--plan plan.toml' "--plan none.toml --journal journal.db --controls above.db --port 65536" \
    "--plan none.toml $words --rounds 1" "--plan none.toml $words --number 0" "--plan none.toml $words --number 3" \
    "--plan none.toml $words --number two" "--plan none.toml $words --every 0" "--plan none.toml $words --every 86400001" \
    "--plan none.toml $words --polls 2" "--plan none.toml $words --forever" "--plan none.toml $words --every 100 --polls 0" \
    "--plan none.toml $words --every 100 --polls 1000001" "--plan none.toml $words --every 100 --polls 2 --forever"; do
    expect "takes-no-words:centre $wrong" 2 '' '' centre $wrong
done
# issues_no TEXT WHY: which are no words of a control, whatever the plan; the first wrong word is told
issues_no() {
    expect "issues-no:$1" 2 '' '' centre --plan none.toml $words --issue "$1"
    says "tells-the-wrong-word:$1" "error: invalid value '${1//$'\n'/\\n}' for '--issue <TEXT>': $2 belongs

For more information, try '--help'."
}
order='where latch-on, latch-off, pulse-on, pulse-off, close, trip, set16, set32 or block'
substation="where a substation's number, 0 to 15,"
time='where a time as 100ms or 2s, 4294967295ms at most,'
issues_no '' "word 1: an empty word, $substation"
issues_no '0' "word 2: the words end, $order"
issues_no '0 block 0 1 1 0' 'word 7: the words end, where a number of milliseconds, 0 to 4294967295,'
issues_no '0 block 0 1 1 0 0 0' "word 8: '0', where the end"
issues_no '0 block 0 256 1 0 0' "word 4: '256', where a control code, 0 to 255 or 0x00 to 0xFF,"
issues_no '0 block 0 0x100 1 0 0' "word 4: '0x100', where a control code, 0 to 255 or 0x00 to 0xFF,"
issues_no '0 block 65536 1 1 0 0' "word 3: '65536', where an output's number, 0 to 65535,"
issues_no '0 block 0 1 256 0 0' "word 5: '256', where how many times, 0 to 255,"
issues_no '16 block 0 1 1 0 0' "word 1: '16', $substation"
issues_no 'issue 0 block 0 1 1 0 0' "word 1: 'issue', $substation"
issues_no 'trip 3 100ms' "word 1: 'trip', $substation"
issues_no '0 set16 0 32768' "word 4: '32768', where a whole number from -32768 to 32767"
issues_no '0 set32  0 1' "word 3: an empty word, where an output's number, 0 to 65535,"
issues_no '0 set32 0 2147483648' "word 4: '2147483648', where a whole number from -2147483648 to 2147483647"
issues_no '0 set8 0 1' "word 2: 'set8', $order"
issues_no $'0 set16 0 1\n' "word 4: '1\\n', where a whole number from -32768 to 32767"
issues_no '0 set16 0 +1' "word 4: '+1', where a whole number from -32768 to 32767"
issues_no '0 Trip 3 100ms' "word 2: 'Trip', $order"
issues_no '0 trip 3' "word 4: the words end, $time"
issues_no '0 trip 3 100' "word 4: '100', $time"
issues_no '0 trip 3 4294967296ms' "word 4: '4294967296ms', $time"
issues_no '0 close 3 4294968s' "word 4: '4294968s', $time"
issues_no '0 latch-on 3 1s' "word 4: '1s', where the end"
expect has-no-plan 3 '' '' centre --plan none.toml $words --issue '15 set16 0 1'
says tells-that-it-has-no-plan 'dnp: none.toml: No such file or directory (os error 2)'
plan wrong.toml 1 2 retries=4
expect refuses-a-plan-before-a-control 1 'refused plan 3' '' centre --plan wrong.toml $words --issue '15 set16 0 1'
# lacks TEXT WHAT: the plan lacks what this control is for, and that is said
lacks() {
    expect "has-no-output-for:$1" 2 '' '' centre --plan plan.toml $words --issue "$1" --new
    says "tells-of-no-output-for:$1" "error: invalid value '$1' for '--issue <TEXT>': $2

For more information, try '--help'."
}
lacks '2 set16 0 1' 'the plan has no substation from 2 on'
lacks '0 set16 1 1' 'substation 0 of the plan has no setpoint from 1 on'
lacks '1 block 1 1 1 0 0' 'substation 1 of the plan has no output from 1 on'
[ ! -e journal.db ] && [ ! -e above.db ] && echo ok makes-no-file-for-no-output || echo FAILED makes-no-file-for-no-output
expect has-no-journal 3 '' '' centre --plan plan.toml $words
logs tells-that-it-has-no-journal "journal.db: No such file or directory (os error 2): give '--new' in the first run"
: >empty.db
expect takes-no-empty-journal 1 '' '' centre --plan plan.toml --journal empty.db --controls above.db --port "$port"
logs tells-that-no-journal-was-made "empty.db: no journal was made there: remove the file, and let '--new' make one"
echo 'no database, but longer than the head of one is, which has a hundred octets, and so a text of some length' >text.db
expect takes-no-text-for-a-journal 1 '' '' centre --plan plan.toml --journal text.db --controls above.db --port "$port"
logs tells-that-a-text-is-no-journal "text.db: no journal: file is not a database that obeys its schema: give the file of a journal, or with '--new' one that isn't there"
mkdir folder.db
expect takes-no-folder 3 '' '' centre --plan plan.toml --journal folder.db --controls above.db --port "$port"
expect takes-no-file-twice 2 '' '' centre --plan plan.toml --journal twice.db --controls twice.db --port "$port" --new
says tells-that-a-file-is-given-twice "error: invalid value 'twice.db' for '--controls <FILE>': it is that of --journal, and each store has a file of its own

For more information, try '--help'."

# Nobody listens: a control stands in the book, and the next run sends it
polls finds-nobody 3 '' --new --issue '0 set16 0 -7'
logs tells-that-nobody-is-there "control 1: issued
the concentrator: lost, no good answer since the start: port $port: Connection refused (os error 111)
control 1: pending: the next run sends it, and to issue it again would double it"
holds keeps-the-control above.db 'SELECT id, kind, point, value, state FROM control' '1|1|0|-7|0'
polls makes-no-second-journal 1 '' --new
logs tells-of-a-journal-that-is-there "journal.db: a journal is there already, or tables of its names: leave '--new' away, or remove the file"
expect has-no-book 3 '' '' centre --plan plan.toml --journal journal.db --controls none.db --port "$port"
logs tells-that-it-has-no-book "none.db: No such file or directory (os error 2): give '--new' in the first run"
[ ! -e none.db ] && echo ok makes-no-book || echo FAILED makes-no-book
expect takes-no-book-for-a-journal 1 '' '' centre --plan plan.toml --journal above.db --controls journal.db --port "$port"
logs tells-that-a-book-is-no-journal 'above.db: no journal: a book of controls is there: give the file of a journal'
sqlite3 above.db '.backup altered.db' && sqlite3 altered.db 'DROP TABLE form'
expect takes-no-altered-book 1 '' '' centre --plan plan.toml --journal journal.db --controls altered.db --port "$port"
logs tells-that-a-book-is-altered 'altered.db: no book of controls, or not whole'
sqlite3 beside.db 'CREATE TABLE beside (x INTEGER)'
expect works-beside-other-tables 3 '' '' centre --plan plan.toml --journal beside.db --controls next.db --port "$port" --new
logs tells-of-other-tables "beside.db: other tables stand there too: nothing is promised of what is stored beside them
the concentrator: lost, no good answer since the start: port $port: Connection refused (os error 111)"

substation 0 2
substation 1 none
concentrates --new --rounds 5
listens "$port"
polls sends-what-is-pending 0 'rows 2'
logs says-what-became-of-what-was-pending 'control 1: selected at the concentrator
control 1: taken by the concentrator (status 0 SUCCESS)'
polls issues-another 0 'rows 2' --issue '0 pulse-on 0 33ms'
logs tells-what-became-of-it 'code 1 = 0x01: PULSE_ON
control 2: issued
control 2: selected at the concentrator
control 2: taken by the concentrator (status 0 SUCCESS)'
polls issues-what-is-no-code 0 'rows 2' --issue '0 block 0 0 1 34 0'
logs tells-of-a-refusal 'code 0 = 0x00: NUL
control 3: issued
control 3: SELECT refused by the concentrator (status 4 NOT_SUPPORTED)'
polls polls-on 0 'rows 2'
logs says-nothing-of-a-good-run ''
got=0
"$dnp" centre --plan plan.toml $words >/dev/full 2>err </dev/null || got=$?
: >out
judge fails-without-an-output 3 '' "$got"
logs tells-that-its-output-is-full 'standard output: No space left on device (os error 28)'
ended counts-rounds 0 'round 1 rows 2
round 2 rows 2
round 3 rows 2
round 4 rows 2
round 5 rows 2'
concentrates
listens "$port"
polls is-no-other-centre 3 'rows 0' --number 2
logs tells-that-another-centre-is-not-answered "the concentrator: lost, no good answer since the start: no answer in $((3 * response)) ms"
ended answers-no-other-centre 0 'round 1 rows 2'
grep operated log-0 >out
judge operates-in-the-next-round 0 'operated -7
operated 33' 0
holds has-finished-controls above.db 'SELECT id, state, status FROM control' '1|2|0
2|2|0
3|2|4'
holds has-each-event-once journal.db 'SELECT group_concat(value) FROM journal' '1,2,3,4,5,6,7,8,9,10'
gone

# A concentrator that is silent, while nobody else has the centre's files, and one that leaves
plan plan.toml 1 2
python3 -c '
import socket, sys, time
s = socket.socket()
s.setsockopt(socket.SOL_SOCKET, socket.SO_REUSEADDR, 1)
s.bind(("127.0.0.1", int(sys.argv[1])))
s.listen()
first, _ = s.accept()
began = time.monotonic()
while first.recv(1000):
    pass
print(int(1000 * (time.monotonic() - began)), flush=True)
second, _ = s.accept()
second.close()' "$port" >held &
running+=($!)
listens "$port"
"$dnp" centre --plan plan.toml $words >waited 2>said </dev/null &
waiting=$!
connects "$port"
polls takes-no-file-in-use 3 ''
logs tells-that-a-file-is-in-use 'journal.db: in use by another program, or given for two stores: end that program, or give each store a file of its own'
got=0
wait "$waiting" || got=$?
mv waited out
mv said err
judge waits-for-a-silent-one 3 'rows 0' "$got"
logs tells-of-silence "the concentrator: lost, no good answer since the start: no answer in $((3 * response)) ms"
took=$(<held)
if ((took >= 3 * response - 10 && took <= 4 * response)); then echo ok waits-for-each-in-turn; else echo "FAILED waits-for-each-in-turn: $took ms"; fi
polls fails-with-one-that-leaves 3 'rows 0'
gone

# A plan that has changed under what is stored
plan plan.toml 0 2
polls takes-no-row-that-is-not-planned 1 ''
logs names-the-row-that-is-not-planned 'journal.db: row 1, analog 0 1 01 -: the plan has no such point'
sed -i 's/^setpoints = 1/setpoints = 0/; s/^analog = .*/analog = [1]/; s/^deadband = .*/deadband = [0]/' plan.toml
polls takes-no-control-that-is-not-planned 1 ''
logs names-the-control-that-is-not-planned 'above.db: control 1, 0 set16 0 -7: the plan has no such output'
