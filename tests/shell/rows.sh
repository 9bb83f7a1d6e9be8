#!/bin/bash
# `dnp rows` from the shell: its words, its files, and rows as text, CSV and JSON against what sqlite3 says of the same files,
# in trees of several levels, in pages of each size, with and without a log, and at the ends of their ranges.
. "$(dirname "${BASH_SOURCE[0]}")/../expect.bash"
files=$top/tests/files
last=4611686018427387904

# sql FILE STATEMENTS: makes a database of a store, and does more in it
sql() { sqlite3 "$1" ".read $files/$2.sql" "$3"; }
sql journal.db journal "DELETE FROM journal; INSERT INTO journal VALUES (3,0,0,129,1,0), (4,1,65535,255,4294967295,281474976710655),
(7,2,12,1,-2147483648,951782399999), (8,2,12,0,2147483647,951782400000), (9,2,0,16,0,NULL), (10,0,7,1,0,1795575601000),
(11,2,1,1,5,68169599999), (12,2,1,1,5,68169600000), (13,2,1,1,5,4107542399999), (14,2,1,1,5,4107542400000), ($last,2,1,1,5,1709164800000)"
sql queue.db queue "INSERT INTO queue VALUES (29,0,1,1,1,1000); INSERT INTO queue_b VALUES (4,5,3,2,-9,NULL)"
sql book.db book "UPDATE control SET state = 1 WHERE id = 2; UPDATE control SET status = 127 WHERE id = 7;
INSERT INTO control VALUES (10,3,0,65535,255,255,4294967295,4294967295,0,2,8), (11,3,2,1,0,0,0,0,-2147483648,0,0), (12,3,1,1,0,0,0,0,-32768,0,0)"
sql old.db old ''

# what sqlite3 has of them, in the words of `dnp rows`
# (sqlite3 has no year over 9999: `date` has that of the last time)
final="$(date -u -d @281474976710 +%Y-%m-%dT%H:%M:%S)"
stamp="ifnull(strftime('%Y-%m-%dT%H:%M:%S', time / 1000, 'unixepoch'), CASE time / 1000 WHEN 281474976710 THEN '$final' END) || printf('.%03dZ', time % 1000)"
kinds="CASE kind WHEN 0 THEN 'binary' WHEN 1 THEN 'counter' ELSE 'analog' END"
as_text() { sqlite3 "$1" "SELECT id || ' ' || $kinds || ' ' || point || ' ' || value || ' ' || printf('%02X', flags) || ' ' || ifnull($stamp, '-') FROM journal WHERE id > $2 ORDER BY id"; }
as_csv() {
    echo id,kind,index,value,flags,time,utc
    sqlite3 -csv "$1" "SELECT id, $kinds, point, value, printf('%02X', flags), time, $stamp FROM journal WHERE id > $2 ORDER BY id" | tr -d '\r'
}
as_json() { sqlite3 "$1" "SELECT json_object('id', id, 'kind', $kinds, 'index', point, 'value', value, 'flags', printf('%02X', flags), 'time', time, 'utc', $stamp) FROM journal WHERE id > $2 ORDER BY id"; }

# Words
for wrong in '' '--csv' '--journal journal.db --queue queue.db' '--journal journal.db --csv --json' '--queue queue.db --centre 3' \
    '--journal journal.db --after -1' '--journal journal.db --after 4611686018427387905' '--journal journal.db --follow --every 0' \
    '--journal journal.db --every 5' '--journal journal.db --centre 2' '--journal journal.db --of centre' '--controls book.db --of station'; do
    expect "takes-no-words:rows $wrong" 2 '' '' rows $wrong
done

expect takes-no-id-below-0 2 '' '' rows --journal journal.db --after -1
says says-which-ids-there-are "error: invalid value '-1' for '--after <ID>': not a decimal number from 0 to $last

For more information, try '--help'."
# needs OPTION VALUE WORDS..: which are wrong without another option
needs() {
    expect "needs-another-option:$*" 2 '' '' rows --journal journal.db "${@:3}"
    sed '/^Usage: /,$d' err >said && mv said err
    says "says-which-option-is-needed:$*" "error: the following required arguments were not provided:
  $1${2:+ $2}
"
}
needs --follow '' --every 5
needs --controls '<FILE>' --of centre
for store in journal controls; do
    expect "takes-no-centre-of-another-store:$store" 2 '' '' rows --$store journal.db --centre 2
    sed '/^Usage: /,$d' err >said && mv said err
    says "says-that-a-centre-is-of-a-queue:$store" "error: the argument '--$store <FILE>' cannot be used with '--centre <N>'
"
done

# Files
for store in journal queue controls; do
    expect "has-no-file:$store" 3 '' '' rows --$store none.db
    says "tells-that-it-has-no-file:$store" 'dnp: none.db: No such file or directory (os error 2)'
done
[ ! -e none.db ] && [ ! -e none.db-wal ] && echo ok rows-makes-no-file || echo FAILED rows-makes-no-file
echo 'no database, but longer than the head of one is, which has a hundred octets, and so a text of some length' >text.db
echo short >short.db
: >empty.db
sqlite3 other.db 'CREATE TABLE form (number INTEGER NOT NULL); INSERT INTO form VALUES (1)'
mkdir folder.db
expect takes-no-text-for-a-journal 1 '' '' rows --journal text.db
says tells-that-a-text-is-no-journal 'dnp: text.db: no journal: file is not a database that obeys its schema'
expect takes-no-short-text 1 '' '' rows --queue short.db
says tells-that-a-short-text-is-no-queue 'dnp: short.db: no queue: file is not a database that obeys its schema'
expect takes-no-empty-file 1 '' '' rows --journal empty.db
says tells-that-no-journal-was-made "dnp: empty.db: no journal was made there: remove the file, and let '--new' make one"
expect takes-no-other-tables 1 '' '' rows --journal other.db
says tells-that-other-tables-are-no-journal 'dnp: other.db: no journal, or not whole'
expect takes-no-journal-for-a-book 1 '' '' rows --controls journal.db
says tells-that-a-journal-is-no-book "dnp: journal.db: no book of controls: a journal is there, whose rows '--journal' prints"
expect takes-no-book-for-a-journal 1 '' '' rows --journal book.db
says tells-that-a-book-is-no-journal "dnp: book.db: no journal: a book of controls is there, whose rows '--controls' prints"
expect takes-no-queue-for-a-journal 1 '' '' rows --journal queue.db
says tells-that-a-queue-is-no-journal "dnp: queue.db: no journal: a queue is there, whose rows '--queue' prints"
# (which is no queue of an earlier release, though its form has the same number)
for other in 'journal journal' 'book controls'; do
    expect "takes-no-other-for-a-queue:$other" 1 '' '' rows --queue "${other% *}.db" --centre 2
    says "tells-that-it-is-no-queue:$other" "dnp: ${other% *}.db: no queue: a $([ "$other" = 'journal journal' ] && echo journal || echo 'book of controls') is there, whose rows '--${other#* }' prints"
done
for centre in 1 2; do
    expect "takes-no-queue-of-an-earlier-release:$centre" 1 '' '' rows --queue old.db --centre $centre
    says "tells-that-a-queue-is-of-an-earlier-release:$centre" "dnp: old.db: a queue of an earlier release, for one centre: let '--migrate' bring it to the form for two"
done
expect takes-no-folder 3 '' '' rows --journal folder.db
cp journal.db odd.db && sqlite3 odd.db "INSERT INTO journal VALUES (15,0,0,1,'x',NULL)"
expect takes-no-word-for-a-value 1 '' '' rows --journal odd.db
cp journal.db odd.db && sqlite3 odd.db 'PRAGMA ignore_check_constraints = ON; UPDATE journal SET time = 281474976710656 WHERE id = 4'
expect takes-no-time-past-the-last 1 '' '' rows --journal odd.db
head -c 6000 journal.db >cut.db
expect takes-no-cut-file 1 '' '' rows --journal cut.db

# Rows
expect journal-as-text 0 "$(as_text journal.db 0)" '' rows --journal journal.db
expect journal-as-csv 0 "$(as_csv journal.db 0 | sed 's/$/\r/')" '' rows --journal journal.db --csv
expect journal-as-json 0 "$(as_json journal.db 0)" '' rows --journal journal.db --json
for after in 2 3 5 14 $last; do
    expect "journal-after:$after" 0 "$(as_json journal.db $after)" '' rows --journal journal.db --json --after $after
done
expect queue-of-centre-1 0 $'28 centre 1 class 3 analog 7 1 01 1970-01-01T00:00:01.000Z\n29 centre 1 class 1 binary 1 1 01 1970-01-01T00:00:01.000Z' \
    '' rows --queue queue.db
expect queue-of-centre-2 0 $'id,centre,class,kind,index,value,flags,time,utc\r\n4,2,2,analog,3,-9,02,,\r' '' rows --queue queue.db --centre 2 --csv
expect queue-as-json 0 '{"id":4,"centre":2,"class":2,"kind":"analog","index":3,"value":-9,"flags":"02","time":null,"utc":null}' '' rows --queue queue.db --centre 2 --json
# of OPTION PENDING SPENT DONE REFUSED: the controls as text, with what is said of each state in these words
name="CASE status WHEN 0 THEN 'SUCCESS' WHEN 4 THEN 'NOT_SUPPORTED' WHEN 8 THEN 'TOO_MANY_OBJS' WHEN 127 THEN 'UNDEFINED' ELSE '?' END"
of() {
    expect "controls-as-text:$1" 0 "$(sqlite3 book.db "SELECT id || ' target ' || target || ' ' || CASE kind WHEN 0 THEN 'block ' || point || ' ' || code || ' ' || count || ' ' || on_ms || ' ' || off_ms
WHEN 1 THEN 'set16 ' || point || ' ' || value ELSE 'set32 ' || point || ' ' || value END || CASE state WHEN 0 THEN ' $2' WHEN 1 THEN ' $3'
ELSE CASE status WHEN 0 THEN ' $4' ELSE ' $5' END || ' (status ' || status || ' ' || $name || ')' END FROM control ORDER BY id")" '' rows --controls book.db $1
}
of '' pending spent 'finished: answered by the next station below' 'finished: answered by the next station below'
of '--of centre' 'pending: no OPERATE was sent to the concentrator yet' 'spent: sent to the concentrator, and its answer is not known' \
    'taken by the concentrator' 'refused by the concentrator'
of '--of concentrator' 'pending: no OPERATE was sent to the substation yet' 'spent: sent to the substation, and its answer is not known' \
    'operated by the substation' 'refused by the substation'
expect controls-as-csv 0 "$( (echo id,target,command,index,code,count,on_ms,off_ms,value,state,status
    sqlite3 -csv book.db "SELECT id, target, CASE kind WHEN 0 THEN 'block' WHEN 1 THEN 'set16' ELSE 'set32' END, point, CASE kind WHEN 0 THEN code END, CASE kind WHEN 0 THEN count END,
CASE kind WHEN 0 THEN on_ms END, CASE kind WHEN 0 THEN off_ms END, CASE kind WHEN 0 THEN NULL ELSE value END, CASE state WHEN 0 THEN 'pending' WHEN 1 THEN 'spent' ELSE 'finished' END,
CASE state WHEN 2 THEN status END FROM control ORDER BY id" | tr -d '\r') | sed 's/$/\r/')" '' rows --controls book.db --csv
expect controls-after 0 '{"id":11,"target":3,"command":"set32","index":1,"value":-2147483648,"state":"pending","status":null}
{"id":12,"target":3,"command":"set16","index":1,"value":-32768,"state":"pending","status":null}' '' rows --controls book.db --json --after 10

# An id that the store has not given is another file's; one that it gave and let go is none
sqlite3 queue.db 'DELETE FROM queue'
expect queue-after-its-last-id 0 '' '' rows --queue queue.db --after 29
expect takes-no-id-of-another-file 1 '' '' rows --queue queue.db --after 30
says tells-that-an-id-is-of-another-file 'dnp: queue.db: its last id is 29: another file than the one that ids were taken from'

# Many rows, with gaps, in trees of two and three levels, with and without a log beside the file, checkpointed or not
for size in 512 1024 4096 65536; do
    rm -f many.db*
    sqlite3 many.db "PRAGMA page_size = $size; PRAGMA journal_mode = $([ $size = 1024 ] && echo delete || echo wal)" ".read $files/journal.sql" >/dev/null
    sqlite3 many.db ".filectrl persist_wal 1" "PRAGMA wal_autocheckpoint = $([ $size = 4096 ] && echo 0 || echo 50);
WITH RECURSIVE n(i) AS (SELECT 10 UNION ALL SELECT i + 1 FROM n WHERE i < 8000) INSERT INTO journal SELECT i * 3, i % 3, i % 65536, i % 256, i * 7 - 90000, i * 86399123 FROM n;
DELETE FROM journal WHERE id BETWEEN 3000 AND 18000 AND id % 2 = 0; UPDATE journal SET value = -value WHERE id % 5 = 0" >/dev/null
    for after in 0 2999 17999 23999 24000; do
        expect "many-rows:pages-of-$size-after-$after" 0 "$(as_text many.db $after)" '' rows --journal many.db --after $after
    done
done

# All rows change while they are read: those that are printed are of one moment
if command -v gcc >/dev/null; then
    gcc -shared -fPIC -O1 -o tear.so "$top/tests/programs/tear.c" -ldl
    sqlite3 torn.db 'PRAGMA page_size = 512' ".read $files/journal.sql"
    sqlite3 torn.db "WITH RECURSIVE n(i) AS (SELECT 20 UNION ALL SELECT i + 1 FROM n WHERE i < 900) INSERT INTO journal SELECT i, i % 3, i, 1, i, i FROM n"
    cp torn.db changed.db && sqlite3 changed.db 'UPDATE journal SET value = -value'
    for at in 30 45 60; do
        cp torn.db torn-$at.db
        got=0
        TEAR_AT=$at TEAR_BY="sqlite3 torn-$at.db 'UPDATE journal SET value = -value'" LD_PRELOAD=$PWD/tear.so "$dnp" rows --journal torn-$at.db >out 2>err </dev/null || got=$?
        judge "reads-again-what-changed-before-read:$at" 0 "$(as_text changed.db 0)" "$got"
    done
fi

# A file and its log that may not be written, or are read by one who may not
chmod 444 many.db*; before=$(cat many.db* | cksum; ls | cksum)
expect reads-files-that-may-not-be-written 0 "$(as_text journal.db 14)" '' rows --journal journal.db --after 14
"$dnp" rows --journal many.db >/dev/null
[ "$before" = "$(cat many.db* | cksum; ls | cksum)" ] && echo ok changes-no-file || echo FAILED changes-no-file

# The reader has gone, or the output is full
("$dnp" rows --journal many.db; echo $? >status) 2>err | true
[ "$(cat status)" = 4 ] && [ ! -s err ] && echo ok ends-quietly-where-nobody-reads || echo "FAILED ends-quietly-where-nobody-reads: $(cat status err)"
"$dnp" rows --journal many.db >/dev/full 2>err
[ $? = 3 ] && grep -q '^dnp: standard output: No space left' err && echo ok tells-of-a-full-output || echo "FAILED tells-of-a-full-output: $(cat err)"

# Rows that come later, while a reader follows: each row once, in the order of their ids, and none from another file
sql follow.db journal 'PRAGMA journal_mode = wal' >/dev/null
timeout 120 "$dnp" rows --journal follow.db --follow --every 20 --after 4 >followed 2>err &
reader=$!
for number in 1 2 3 4 5; do
    sqlite3 follow.db ".filectrl persist_wal 1" "WITH RECURSIVE n(i) AS (SELECT 1 UNION ALL SELECT i + 1 FROM n WHERE i < 1500)
INSERT INTO journal SELECT (SELECT max(id) FROM journal) + i * 2, 2, 5, 1, $number * i, i FROM n" >/dev/null
    sleep 0.1
done
for ((try = 0; try < 600; try++)); do
    [ "$(wc -l <followed)" -ge 7505 ] && break
    sleep 0.1
done
as_text follow.db 4 | cmp -s - followed && echo ok follows-rows-that-come-later || { echo FAILED follows-rows-that-come-later; tail -n 2 followed err; }
sql new.db journal '' && rm -f follow.db-wal && mv new.db follow.db
wait $reader
[ $? = 1 ] && [ "$(cat err)" = 'dnp: follow.db: its last id is 9: another file than the one that ids were taken from' ] &&
    echo ok ends-where-another-file-came || echo "FAILED ends-where-another-file-came: $(cat err)"
