#!/bin/bash
# `--network FILE` from the shell: the words that don't go with it, the files that each program refuses before it opens or makes
# anything, names of hosts that nobody knows, and what `dnp rows` prints of stations and points. Stations that lie on hosts of their
# own are tried by tests/programs/namespaces.py.
. "$(dirname "${BASH_SOURCE[0]}")/../expect.bash"
files=$top/tests/files
export RES_OPTIONS='timeout:1 attempts:1'

lanes='[9, 9, 9, 9, 9, 9, 9, 9, 9]'
cat >plan.toml <<PLAN
confirm_ms = 5000
response_ms = 1000
select_ms = 5000
retries = 0
unsolicited = false
queue = $lanes
queue2 = $lanes
[[substation]]
lanes = $lanes
binary = [1, 1]
counter = []
analog = [1, 1, 1]
deadband = [0, 0, 0]
outputs = 4
setpoints = 0
base = [0, 0, 0, 0, 0]
[[substation]]
lanes = $lanes
binary = []
counter = []
analog = [1]
deadband = [0]
outputs = 0
setpoints = 1
base = [0, 0, 12, 0, 0]
PLAN
# network FIRST SECOND LINES..: a file of a network with these values of `at`, and these lines before its substations
network() {
    local at=("$1" "$2")
    shift 2
    { printf '%s\n' "$@" '[[substation]]' "at = \"${at[0]}\"" 'name = "Kirchberg, \"old\" 110 kV"' '[[substation]]' "at = \"${at[1]}\""; } >n.toml
}
network 127.0.0.1:20000 127.0.0.1:20001

stores='--queue q.db --controls b.db'
programs=("concentrate $stores --new" 'centre --journal j.db --controls b.db --new' 'outstation --station 1' 'rows --journal j.db')
of() { echo "${1%% *}"; }

# Words
for wrong in "concentrate $stores --port 20100" "concentrate $stores --port2 20101" "concentrate $stores --below 20000" \
    "concentrate $stores --bind 127.0.0.1" 'centre --journal j.db --controls b.db --port 20100' 'outstation --station 0 --port 20000' \
    'outstation --station 0 --bind 0.0.0.0' "concentrate $stores --rounds 2" "concentrate $stores --every 100" \
    'centre --journal j.db --controls b.db --every 100'; do
    option=$(grep -o -e '--port2\|--port\|--below\|--bind\|--rounds\|--every' <<<"$wrong")
    expect "not-with-a-network:$wrong" 2 '' '' $wrong --plan plan.toml --network n.toml
    grep '^error: the argument .* cannot be used with ' err | grep -F -- "'--network <FILE>'" | grep -qF -- "'$option <" &&
        echo "ok tells-not-with-a-network:$wrong" || { echo "FAILED tells-not-with-a-network:$wrong" && cat err; }
done
expect no-second-centre 2 '' '' centre --journal j.db --controls b.db --new --number 2 --plan plan.toml --network n.toml
says tells-that-there-is-no-second-centre "error: invalid value '2' for '--number <N>': n.toml has no second centre: listen2 is missing in [concentrator]

For more information, try '--help'."
for wrong in 'rows --journal j.db --plan plan.toml' 'rows --journal j.db --network n.toml' 'rows --controls b.db --plan plan.toml --network n.toml'; do
    expect "names-need-more:$wrong" 2 '' '' $wrong
done

# Files: what `dnp check` says, each program says, and none has opened or made a file
for wrong in 'x' '[[substation]]' 'name = 3'; do
    echo "$wrong" >wrong.toml
    "$dnp" check --plan plan.toml --network wrong.toml >/dev/null 2>checked
    for program in "${programs[@]}"; do
        expect "refuses-a-network:$(of "$program") $wrong" 1 '' '' $program --plan plan.toml --network wrong.toml
        says "says-what-check-says:$(of "$program") $wrong" "$(cat checked)"
    done
done
printf 'substation,kind,index,name,unit,scale,zero,one\r\n0,binary,2,A,,,,\r\n' >points.csv
network 127.0.0.1:20000 127.0.0.1:20001 'points = "points.csv"'
for program in "${programs[@]}"; do
    expect "refuses-a-point-that-the-plan-lacks:$(of "$program")" 1 '' '' $program --plan plan.toml --network n.toml
    says "tells-the-point-that-the-plan-lacks:$(of "$program")" \
        'dnp: points.csv: line 2: index: binary 2 of substation 0, which has 2 of that kind, counted from 0'
    expect "reads-no-missing-network:$(of "$program")" 3 '' '' $program --plan plan.toml --network none.toml
done
ls ./*.db >/dev/null 2>&1 && echo FAILED makes-no-file-for-a-network-that-is-refused || echo ok makes-no-file-for-a-network-that-is-refused

# Names of hosts: which one, where it stands, why, and how long it took
network nobody.invalid:20000 127.0.0.1:20001
# unknown NAME WHERE ARGS..: a name of a host is looked up in vain
unknown() {
    local name=$1 where=$2
    shift 2
    expect "has-no-host:$name" 3 '' '' "$@" --plan plan.toml --network n.toml
    tail -n 1 err | grep -qE "^[0-9TZ:.-]+ n.toml: $where: nobody.invalid:20000 (can't be looked up: .*, after|has no address: looked up in) [0-9]+ ms$" &&
        echo "ok tells-the-host:$name" || { echo "FAILED tells-the-host:$name" && cat err; }
}
unknown outstation 'substation 0, listen' outstation --station 0
unknown concentrate 'substation 0, at' concentrate $stores --new
network 127.0.0.1:20000 127.0.0.1:20001 '[concentrator]' 'at = "nobody.invalid:20000"'
unknown centre 'concentrator, at' centre --journal j.db --controls b.db --new
ls ./*.db >/dev/null 2>&1 && echo FAILED makes-no-file-without-a-host || echo ok makes-no-file-without-a-host

# Rows
printf '%s\r\n' 'substation,kind,index,name,unit,scale,zero,one' '0,binary,0,"Feeder 1, breaker",,,open,closed' '0,analog,1,"Line ""A""",kV,0.1,,' \
    '1,analog,0,Level,m,,,' '0,output,3,Breaker,,,,' '1,setpoint,0,Tap,,,,' >points.csv
network 127.0.0.1:20000 127.0.0.1:20001 'points = "points.csv"'
sql() { sqlite3 "$1" ".read $files/$2.sql" "$3"; }
sql journal.db journal "DELETE FROM journal; INSERT INTO journal VALUES (1,0,0,1,1,NULL), (2,0,1,1,0,NULL), (3,2,1,1,-5,1795575601000), (4,2,12,1,7,NULL), (5,1,9,1,7,NULL)"
names=(--plan plan.toml --network n.toml)
expect rows-with-names 0 '1 binary 0 1 01 - Kirchberg, "old" 110 kV: Feeder 1, breaker
2 binary 1 0 01 - Kirchberg, "old" 110 kV
3 analog 1 -5 01 2026-11-25T03:00:01.000Z Kirchberg, "old" 110 kV: Line "A"
4 analog 12 7 01 - substation 1: Level
5 counter 9 7 01 -' '' rows --journal journal.db "${names[@]}"
"$dnp" rows --journal journal.db --csv "${names[@]}" | tr -d '\r' >out
cat >want <<'CSV'
id,kind,index,value,flags,time,utc,substation,station,point
1,binary,0,1,01,,,0,"Kirchberg, ""old"" 110 kV","Feeder 1, breaker"
2,binary,1,0,01,,,0,"Kirchberg, ""old"" 110 kV",
3,analog,1,-5,01,1795575601000,2026-11-25T03:00:01.000Z,0,"Kirchberg, ""old"" 110 kV","Line ""A"""
4,analog,12,7,01,,,1,,Level
5,counter,9,7,01,,,,,
CSV
cmp -s want out && echo ok rows-with-names-as-csv || { echo FAILED rows-with-names-as-csv && cat out; }
expect rows-with-names-as-json 0 '{"id":3,"kind":"analog","index":1,"value":-5,"flags":"01","time":1795575601000,"utc":"2026-11-25T03:00:01.000Z","substation":0,"station":"Kirchberg, \"old\" 110 kV","point":"Line \"A\""}
{"id":4,"kind":"analog","index":12,"value":7,"flags":"01","time":null,"utc":null,"substation":1,"station":null,"point":"Level"}
{"id":5,"kind":"counter","index":9,"value":7,"flags":"01","time":null,"utc":null,"substation":null,"station":null,"point":null}' '' \
    rows --journal journal.db --after 2 --json "${names[@]}"
sql book.db book 'DELETE FROM control; INSERT INTO control VALUES (1,0,0,3,65,1,100,100,0,0,0), (2,1,1,0,0,0,0,0,9,0,0)'
expect controls-with-names 0 '1 target 0 block 3 65 1 100 100 pending: no OPERATE was sent to the substation yet Kirchberg, "old" 110 kV: Breaker
2 target 1 set16 0 9 pending: no OPERATE was sent to the substation yet substation 1: Tap' '' rows --controls book.db --of concentrator "${names[@]}"
