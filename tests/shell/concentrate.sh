#!/bin/bash
# `dnp concentrate` from the shell: its words, its files, one centre and two, and substations of another make, some of which fail.
. "$(dirname "${BASH_SOURCE[0]}")/../expect.bash"
. "$top/tests/networks.bash"
trap 'gone; kill "${concentrating-}" 2>/dev/null; rm -rf "$room"' EXIT

below=$(free) port=$(free) port2=$(free)
plan plan.toml 1 2
words="--queue queue.db --controls below.db --port $port --below $below"

# Words, then the plan's file, then its text, then words against the plan
for wrong in '' '--plan plan.toml' "--plan none.toml $words --rounds 0" "--plan none.toml $words --rounds 1000001" \
    "--plan none.toml --queue queue.db --controls below.db --port 0 --below $below" "--plan none.toml $words --connections 1" \
    "--plan none.toml --queue queue.db --controls below.db --port $port --below 65536" "--plan none.toml $words --port2 0" \
    "--plan none.toml $words --port2 65536" "--plan none.toml $words --every 0" "--plan none.toml $words --every 86400001" \
    "--plan none.toml $words --forever" "--plan none.toml $words --every 100 --forever --rounds 2" \
    "--plan none.toml $words --idle 5" "--plan none.toml $words --every 100 --idle 0" \
    "--plan none.toml $words --every 100 --idle 86401" "--plan none.toml $words --every 100 --polls 2"; do
    expect "takes-no-words:concentrate $wrong" 2 '' '' concentrate $wrong
done
expect has-no-plan 3 '' '' concentrate --plan none.toml $words
says tells-that-it-has-no-plan 'dnp: none.toml: No such file or directory (os error 2)'
plan wrong.toml 1 2 retries=4
expect refuses-a-plan-before-a-port 1 'refused plan 3' '' concentrate --plan wrong.toml --queue queue.db --controls below.db --port 1 --below 65535
says tells-why-it-refuses-a-plan 'dnp: wrong.toml: retries: 4, where a whole number from 0 to 3 belongs'
expect has-no-port-for-the-last 2 '' '' concentrate --plan plan.toml --queue queue.db --controls below.db --port "$port" --below 65535
expect looks-at-ports-before-files 2 '' '' concentrate --plan plan.toml --queue "$room" --controls below.db --port "$port" --below 65535

# Files: what is there, or isn't
expect has-no-queue 3 '' '' concentrate --plan plan.toml $words
logs tells-that-it-has-no-queue "queue.db: No such file or directory (os error 2): give '--new' in the first run"
[ ! -e queue.db ] && [ ! -e below.db ] && echo ok makes-no-file || echo FAILED makes-no-file
refused="--plan plan.toml --port $port --below $below"
echo 'no database, but longer than the head of one is, which has a hundred octets, and so a text of some length' >text.db
: >empty.db
sqlite3 other.db 'CREATE TABLE form (number INTEGER NOT NULL); INSERT INTO form VALUES (1)'
mkdir folder.db
expect takes-no-text-for-a-queue 1 '' '' concentrate $refused --queue text.db --controls below.db
logs tells-that-a-text-is-no-queue "text.db: no queue: file is not a database that obeys its schema: give the file of a queue, or with '--new' one that isn't there"
expect takes-no-empty-file 1 '' '' concentrate $refused --queue empty.db --controls below.db
logs tells-that-no-queue-was-made "empty.db: no queue was made there: remove the file, and let '--new' make one"
expect takes-no-other-tables-for-a-queue 1 '' '' concentrate $refused --queue other.db --controls below.db
logs tells-that-other-tables-are-no-queue 'other.db: no queue, or not whole'
expect makes-no-queue-over-a-name-of-its-own 1 '' '' concentrate $refused --queue other.db --controls below.db --new
logs tells-what-is-there-already "other.db: a queue is there already, or tables of its names: leave '--new' away, or remove the file"
expect takes-no-folder 3 '' '' concentrate $refused --queue folder.db --controls below.db
expect takes-no-file-twice 2 '' '' concentrate $refused --queue twice.db --controls twice.db --new
says tells-that-a-file-is-given-twice "error: invalid value 'twice.db' for '--controls <FILE>': it is that of --queue, and each store has a file of its own

For more information, try '--help'."
expect takes-no-file-twice-by-two-names 3 '' '' concentrate $refused --queue twice.db --controls ./twice.db --new
logs tells-that-a-file-is-given-twice-by-two-names './twice.db: in use by another program, or given for two stores: end that program, or give each store a file of its own'
[ ! -e twice.db ] && echo ok leaves-no-half-of-its-stores || echo FAILED leaves-no-half-of-its-stores

# A round: the events of one substation, and none of one of ours
substation 0 3
substation 1 outstation
concentrates --new --rounds 3
listens "$port"
polls has-three-events 0 'rows 3' --new
polls has-the-next-three 0 'rows 3'
polls takes-a-control 0 'rows 3' --issue '1 block 0 3 1 250 0'
ended prints-each-round 0 'round 1 rows 3
round 2 rows 3
round 3 rows 3'
restarted='substation 1: indicates DEVICE_RESTART'
logs says-what-good-rounds-show "$restarted"
holds has-let-the-confirmed-go queue.db 'SELECT count(*) FROM queue' 0
holds keeps-them-for-the-second-centre queue.db 'SELECT group_concat(value) FROM queue_b' '1,2,3,4,5,6,7,8,9'
holds has-the-control below.db 'SELECT target, point, code, on_ms, state FROM control' '1|0|3|250|0'
holds keeps-the-journal journal.db 'SELECT group_concat(value), min(point), max(point) FROM journal' '1,2,3,4,5,6,7,8,9|0|0'
for store in queue below; do
    holds "keeps-a-whole-file:$store" "$store.db" 'PRAGMA integrity_check' ok
done
expect makes-no-second-queue 1 '' '' concentrate $refused --queue queue.db --controls below.db --new
expect takes-no-book-for-a-queue 1 '' '' concentrate $refused --queue below.db --controls queue.db
logs tells-that-a-book-is-no-queue 'below.db: no queue: a book of controls is there: give the file of a queue'
expect has-no-book 3 '' '' concentrate $refused --queue queue.db --controls none.db
logs tells-that-it-has-no-book "none.db: No such file or directory (os error 2): give '--new' in the first run"
[ ! -e none.db ] && echo ok makes-no-book || echo FAILED makes-no-book
sqlite3 queue.db '.backup altered.db' && sqlite3 altered.db 'DROP TABLE lanes'
expect takes-no-altered-queue 1 '' '' concentrate $refused --queue altered.db --controls below.db
logs tells-that-a-queue-is-altered 'altered.db: no queue, or not whole'

# The next run sends the control, and goes on with what stands
concentrates
listens "$port"
polls has-three-more 0 'rows 3'
ended goes-on 0 'round 1 rows 3'
holds has-sent-the-control below.db 'SELECT state, status FROM control' '2|0'

# By a plan of other capacities: those by which the queue was made stand
mv plan.toml whole.toml
plan plan.toml 1 2 queue='[1, 1, 1, 1, 1, 1, 1, 1, 1]' queue2='[1, 1, 1, 1, 1, 1, 1, 1, 1]'
concentrates
listens "$port"
polls has-all-of-a-fuller-round 0 'rows 3'
ended keeps-its-capacities 0 'round 1 rows 3'
holds has-dropped-none queue.db 'SELECT sum(lost) FROM lanes' 0
holds has-dropped-none-for-the-second queue.db 'SELECT sum(lost) FROM lanes_b' 0
mv whole.toml plan.toml

# The second centre takes what has waited for it; in each round the centres are served in the order of their numbers
# both NAME ROWS: a round whose second centre connects before the first, and takes so many rows
both() {
    concentrates --port2 "$port2"
    listens "$port2"
    "$dnp" centre --plan plan.toml --number 2 --journal journal2.db --controls above2.db --port "$port2" >rows2 2>err2 </dev/null &
    local second=$! got=0
    connects "$port2"
    polls "serves-the-first-before:$1" 0 'rows 3'
    wait "$second" || got=$?
    mv rows2 out
    mv err2 err
    judge "serves-the-second-after:$1" 0 "rows $2" "$got"
    ended "serves-both-in-a-round:$1" 0 'round 1 rows 3'
    logs "says-nothing-of-centres:$1" "$restarted"
}
expect makes-the-second-centre 3 '' '' centre --plan plan.toml --number 2 --journal journal2.db --controls above2.db --port "$port2" --new
both behind 18
both level 3
holds has-none-for-the-second queue.db 'SELECT count(*) FROM queue_b' 0
holds has-the-same-events journal.db 'SELECT group_concat(value) FROM journal' '1,2,3,4,5,6,7,8,9,10,11,12,13,14,15,16,17,18,19,20,21'
holds has-the-same-events-in-the-second journal2.db 'SELECT group_concat(value) FROM journal' '1,2,3,4,5,6,7,8,9,10,11,12,13,14,15,16,17,18,19,20,21'

# In use by another program, which serves on
concentrates
listens "$port"
expect takes-no-file-in-use 3 '' '' concentrate $refused --queue queue.db --controls below.db
logs tells-that-a-file-is-in-use 'queue.db: in use by another program, or given for two stores: end that program, or give each store a file of its own'
expect takes-no-port-in-use 3 '' '' concentrate $refused --queue second.db --controls third.db --new
logs tells-that-a-port-is-in-use "port $port: Address already in use (os error 98): another program listens there: end it, or give another port"
[ ! -e second.db ] && [ ! -e third.db ] && echo ok leaves-no-store-without-a-port || echo FAILED leaves-no-store-without-a-port
polls is-served-all-the-same 0 'rows 3'
ended serves-all-the-same 0 'round 1 rows 3'
expect takes-no-port-twice 2 '' '' concentrate $refused --port2 "$port" --queue fourth.db --controls fifth.db --new
says tells-that-a-port-is-given-twice "error: invalid value '$port' for '--port2 <P>': it is that of --port, and each centre has a port of its own

For more information, try '--help'."

# A plan that has changed under what is stored
concentrates
while [ ! -s rounds ] && kill -0 "$concentrating" 2>/dev/null; do sleep 0.01; done
kill -9 "$concentrating"
wait "$concentrating" 2>/dev/null
plan changed.toml 0 2
for _ in {1..100}; do
    "$dnp" concentrate --plan changed.toml $words >out 2>err </dev/null
    [ $? = 3 ] || break
    sleep 0.05
done
expect takes-no-row-that-is-not-planned 1 '' '' concentrate --plan changed.toml $words
logs names-the-row-that-is-not-planned 'queue.db: row 25, analog 0 25 01 -: the plan has no such point with a class'
plan changed.toml 1 1
expect takes-no-control-that-is-not-planned 1 '' '' concentrate --plan changed.toml $words
logs names-the-control-that-is-not-planned 'below.db: control 1, 1 block 0 3 1 250 0: the plan has no such output'
# (nor one that was not sent yet, or was not answered)
sqlite3 below.db '.backup unplanned.db'
for state in 0 1; do
    sqlite3 unplanned.db "UPDATE control SET state = $state, status = 0"
    expect "takes-no-control-that-is-not-planned:state-$state" 1 '' '' concentrate --plan changed.toml ${words/below.db/unplanned.db}
    logs "names-the-control-that-is-not-planned:state-$state" 'unplanned.db: control 1, 1 block 0 3 1 250 0: the plan has no such output'
done

# A round that can't be printed
got=0
"$dnp" concentrate --plan plan.toml $words >/dev/full 2>err </dev/null || got=$?
: >out
judge fails-without-an-output 3 '' "$got"
logs tells-that-its-output-is-full "$restarted${lf}standard output: No space left on device (os error 28)"

# Other tables beside the queue's: it works
sqlite3 beside.db 'CREATE TABLE beside (x INTEGER)'
"$dnp" concentrate $refused --queue beside.db --controls next.db --new >rounds 2>said </dev/null &
concentrating=$!
listens "$port"
polls polls-over-other-tables 0 'rows 3'
ended works-beside-other-tables 0 'round 1 rows 3'
logs tells-of-other-tables "beside.db: other tables stand there too: nothing is promised of what is stored beside them$lf$restarted"

# A queue of an earlier release, for one centre, whose last row had the id 28
grep -v '^INSERT INTO queue ' "$top/tests/files/old.sql" | sqlite3 old.db
expect takes-no-old-queue 1 '' '' concentrate $refused --queue old.db --controls next.db
logs tells-that-a-queue-is-old "old.db: a queue of an earlier release, for one centre: let '--migrate' bring it to the form for two"
expect takes-no-migration-of-a-new-one 2 '' '' concentrate $refused --queue old.db --controls next.db --migrate --new
holds leaves-an-old-queue old.db 'SELECT number FROM form' 1
for said in 'old.db: the queue was for one centre, and has the form for two now' ''; do
    "$dnp" concentrate $refused --queue old.db --controls next.db --migrate >rounds 2>said </dev/null &
    concentrating=$!
    listens "$port"
    polls "goes-on-from-an-old-queue:${said:+first}" 0 'rows 3'
    ended "works-after-a-migration:${said:+first}" 0 'round 1 rows 3'
    logs "tells-of-a-migration:${said:+first}" "${said:+$said$lf}$restarted"
done
holds has-migrated old.db "SELECT number, seq FROM form, sqlite_sequence WHERE name = 'queue'" '2|34'
holds keeps-its-places old.db 'SELECT sum(cap) FROM lanes' 36
holds has-the-planned-places-for-the-second old.db 'SELECT sum(cap) FROM lanes_b' 900
holds keeps-events-for-the-second old.db 'SELECT count(*) FROM queue_b' 6

# At another address: who looks for it at this one finds nobody
for address in here 127.0.0.1:1 ''; do
    expect "listens-at-no:$address" 2 '' '' concentrate --plan plan.toml $words --bind "$address"
done
"$dnp" concentrate $refused --queue bound.db --controls bound-below.db --bind 127.0.0.2 --new >rounds 2>said </dev/null &
concentrating=$!
listens "$port"
(: <"/dev/tcp/127.0.0.1/$port") 2>/dev/null && echo FAILED listens-at-one-address || echo ok listens-at-one-address
(: <"/dev/tcp/127.0.0.2/$port") && echo ok is-reached-there || echo FAILED is-reached-there
ended serves-at-another-address 0 'round 1 rows 3'
gone

# Substations that are not there, silent, send noise, or rows that are not planned: a line each as it begins, and the next one is polled
# printed COUNT: waits until so many rounds are printed
printed() {
    while { [ ! -e rounds ] || [ "$(wc -l <rounds)" -lt "$1" ]; } && kill -0 "$concentrating" 2>/dev/null; do sleep 0.01; done
}
ms() { echo $(($(date +%s%N) / 1000000)); }
# fails NAME EVENTS LEAST MOST LINE: substation 0 fails so, in so many milliseconds, and 1 has its events. The time is that of
# the second round, which begins with the end of the centre's first connection.
fails() {
    local before after ended
    rm -f queue.db below.db
    substation 1 2
    [ "$2" = none ] || substation 0 "$2"
    concentrates --new --rounds 2
    printed 1
    before=$(ms)
    polls "is-served-after-$1" 0 'rows 2'
    after=$(ms)
    printed 2
    ended=$(ms)
    polls "is-served-again-after-$1" 0 'rows 2'
    ended "goes-on-after-$1" 0 $'round 1 rows 2\nround 2 rows 2'
    logs "tells-of-$1" "substation 0: $5"
    if ((ended - before >= $3 && ended - after <= $4)); then
        echo "ok waits-in-time-for-$1"
    else
        echo "FAILED waits-in-time-for-$1: $((ended - before)) and $((ended - after)) ms"
    fi
    gone
}
fails one-that-is-not-there none 0 "$response" "lost, no good answer since the start: port $below: Connection refused (os error 111)"
fails a-silent-one silent "$response" $((2 * response)) "lost, no good answer since the start: no answer in $response ms"
fails noise noise "$response" $((2 * response)) "lost, no good answer since the start: octets came, and no frame"
# (what is refused is said at once, and nothing is waited for)
fails rows-that-are-not-planned stranger 0 "$response" 'response refused: event of analog 7, which the plan lacks'
