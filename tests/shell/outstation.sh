#!/bin/bash
# `dnp outstation` from the shell, with a master that is not this program: master.py.
. "$(dirname "${BASH_SOURCE[0]}")/../expect.bash"

. "$top/tests/outstation.bash"

# The link layer, polls, the restart bit, and what malformed requests are answered
plan plan.toml
serve --connections 2
talks answers-a-master <<'LINES'
link C9 0B
link C0 00
link F2 00
> C0 01 3C 02 06 3C 03 06 3C 04 06 3C 01 06
< C0 81 80 00 0A 02 01 00 00 05 00 01 01 01 01 01 01
> C1 0D
< C1 81 80 01
> C2 01 6E 00 06
< C2 81 80 02
> C3 01 01 02 00 00 00
< C3 81 80 04
> C4 17
< C4 81 80 00 34 02 07 01 00 00
> C5 02 50 01 00 07 07 00
< C5 81 00 00
LINES
# Select before operate, as the worked exchange has it
talks operates-what-was-selected <<'LINES'
> C3 03 0C 01 28 01 00 05 00 03 01 00 00 00 00 00 00 00 00 00
< C3 81 00 00 0C 01 28 01 00 05 00 03 01 00 00 00 00 00 00 00 00 00
> C4 04 0C 01 28 01 00 05 00 03 01 00 00 00 00 00 00 00 00 00
< C4 81 00 00 0C 01 28 01 00 05 00 03 01 00 00 00 00 00 00 00 00 00
> C4 04 0C 01 28 01 00 05 00 03 01 00 00 00 00 00 00 00 00 00
< C4 81 00 00 0C 01 28 01 00 05 00 03 01 00 00 00 00 00 00 00 00 00
> C5 01 0A 02 00 05 05
< C5 81 00 00 0A 02 01 05 00 05 00 81
> C5 04 0C 01 28 01 00 05 00 03 01 00 00 00 00 00 00 00 00 00
< C5 81 00 00 0C 01 28 01 00 05 00 03 01 00 00 00 00 00 00 00 00 02
> C4 04 0C 01 28 01 00 05 00 03 01 00 00 00 00 00 00 00 00 00
< C4 81 00 00 0C 01 28 01 00 05 00 03 01 00 00 00 00 00 00 00 00 02
> C6 03 0C 01 28 01 00 05 00 03 01 00 00 00 00 00 00 00 00 00
< C6 81 00 00 0C 01 28 01 00 05 00 03 01 00 00 00 00 00 00 00 00 00
wait 0.5
> C7 04 0C 01 28 01 00 05 00 03 01 00 00 00 00 00 00 00 00 00
< C7 81 00 00 0C 01 28 01 00 05 00 03 01 00 00 00 00 00 00 00 00 01
> C8 06 0C 01 28 01 00 05 00 04 01 00 00 00 00 00 00 00 00 00
nothing
> C9 01 0A 02 00 05 05
< C9 81 00 00 0A 02 01 05 00 05 00 01
LINES
ended counts-the-fragments "served 6
served 10"
sed -n 2p err | cut -d ' ' -f 2- >out
judge tells-where-it-listens 0 "listening on 127.0.0.1:$port as 10 for master 2" 0

# An unsolicited response first, which the master confirms; a READ waits for that
plan plan.toml unsolicited=true
serve
talks reports-that-it-has-restarted <<'LINES'
< F0 82 80 00
> C0 00
> C1 01 3C 02 06
nothing
> D0 00
< C1 81 80 00
LINES
ended counts-confirms-too "served 3"

# One that no master confirms is repeated as often as the plan says, and then the station hangs up
plan plan.toml unsolicited=true confirm_ms=1000 retries=2
serve --connections 2
talks repeats-what-is-not-confirmed <<'LINES'
< F0 82 80 00
< F0 82 80 00
< F0 82 80 00
wait 3
end
LINES
# A READ that waits for the confirm isn't left unanswered: the link ends
talks ends-where-a-read-waits <<'LINES'
< F0 82 80 00
> C1 01 3C 02 06
wait 3
end
LINES
ended counts-what-was-held $'served 0\nserved 1'

# A change that is replayed is sent unasked at its moment
echo '9000 change binary 0 1 01 1000' >day.txt
plan plan.toml unsolicited=true confirm_ms=9000 retries=2 binary='[1]'
serve --replay day.txt
talks sends-a-change-unasked <<'LINES'
< F0 82 80 00
> D0 00
> C1 14 3C 02 06
< C1 81 80 00
nothing
< F1 82 80 00 02 02 28 01 00 00 00 81 E8 03 00 00 00 00
> D1 00
nothing
LINES
ended counts-confirms-of-changes 'served 3'
# What became due before a master connected is changed when it does, in order, and once
printf '0 change binary 0 1 01 1000\n1 change binary 0 0 01 281474976710655\n' >day.txt
plan plan.toml binary='[1]'
serve --connections 2 --replay day.txt --bind 127.0.0.1
talks changes-what-was-due <<'LINES'
> C0 01 3C 02 06
< E0 81 80 00 02 02 28 02 00 00 00 81 E8 03 00 00 00 00 00 00 01 FF FF FF FF FF FF
> C0 00
nothing
LINES
talks changes-nothing-twice <<'LINES'
> C0 01 3C 02 06
< C0 81 80 00
LINES
ended counts-both-masters $'served 2\nserved 1'
rules="--plan plan.toml --station 0 --port $port"
for line in '5 change binary 0 1 01' '5 chance binary 0 1 01 -' '5 change binary 0 1 1 -' \
    '7 change binary 0 1 01 281474976710656' '-5 change binary 0 1 01 -'; do
    printf '7 change binary 0 1 01 -\n%s\n' "$line" >wrong.txt
    expect "takes-no-replay-with:$line" 1 'refused line 2' '' outstation $rules --replay wrong.txt
done
says says-what-belongs-in-a-line 'dnp: wrong.txt: line 2: word 1: a whole number of milliseconds from the start belongs there'
printf '7 change binary 0 1 01 -\n6 change binary 0 0 01 -\n' >wrong.txt
expect takes-no-replay-that-falls 1 'refused line 2' '' outstation $rules --replay wrong.txt
expect has-no-replay 3 '' '' outstation $rules --replay none.txt
says tells-that-it-has-no-replay 'dnp: none.txt: No such file or directory (os error 2)'
for address in here 127.0.0.1:1 256.0.0.1 ''; do
    expect "listens-at-no:$address" 2 '' '' outstation $rules --bind "$address"
done
rm -f wrong.txt day.txt

# Noise, single octets, and masters that leave within a frame
plan plan.toml
serve --connections 32
talks hears-through-noise <<'LINES'
slow
noise 00 05 64 05 64 05 C9 0A 00 02 00 00 00 FF
link C9 0B
> C0 17
< C0 81 80 00 34 02 07 01 00 00
reset
LINES
wanted='served 1'
for count in {0..14}; do
    for end in '' reset; do
        printf 'cut %s C0 17\n%s\n' "$count" "$end" | talks "stands-when-left-after:$count $end"
        wanted+=$'\nserved 0'
    done
done
echo 'cut 15 C0 17' | talks stands-when-left-unanswered
ended serves-on-after-each "$wanted"$'\nserved 1'

# What keeps it from serving
serve --connections 2
echo | talks serves-nothing
mv out first
got=0
"$dnp" outstation --plan plan.toml --station 0 --port "$port" >out 2>err </dev/null || got=$?
judge stops-where-the-port-is-in-use 3 '' "$got"
logs tells-that-the-port-is-in-use "port $port: Address already in use (os error 98): another program listens there: end it, or give another port"
# (where nothing says which build a program is, it claims nothing)
cp "$program" alone
got=0
./alone outstation --plan plan.toml --station 0 --port "$port" >out 2>err </dev/null || got=$?
judge stops-where-nothing-is-beside-it 3 '' "$got"
started="started: dnp $("$dnp" --version | cut -d ' ' -f 2) (build unknown)" \
    logs tells-that-its-build-is-unknown "port $port: Address already in use (os error 98): another program listens there: end it, or give another port"
rm alone
echo | talks serves-on-after-another-call
mv first out
ended serves-nothing-twice $'served 0\nserved 0'
rules="--port $port --station 0"
expect has-no-plan 3 '' '' outstation --plan none.toml $rules
says tells-that-it-has-no-plan 'dnp: none.toml: No such file or directory (os error 2)'
# refuses NAME NUMBER REASON KEY=VALUE..
refuses() {
    local name=$1 number=$2 reason=$3
    shift 3
    plan wrong.toml "$@"
    expect "$name" 1 "refused plan $number" '' outstation --plan wrong.toml $rules
    says "says-why-it-$name" "dnp: wrong.toml: $reason"
}
# (which key stands in the first line is up to the shell)
none=('confirm_ms=' 'response_ms=' 'select_ms=' 'retries=' 'unsolicited=' 'queue=' 'queue2=')
plan wrong.toml "${none[@]}"
refuses takes-no-text-that-is-no-toml 1 "line 1, column $(head -n 1 wrong.toml | wc -c): the plan is no TOML: invalid value, expected a string, number, boolean, date-time, array or inline table" "${none[@]}"
refuses takes-no-unknown-key 2 "substation 0, unknown key 'colour'" 'colour=3'
refuses takes-no-fourth-retry 3 'retries: 4, where a whole number from 0 to 3 belongs' retries=4
refuses takes-no-class-4 4 'substation 0, binary: item 1 is 4, where a class from 0 to 3 belongs' 'binary=[4]'
refuses takes-no-index-over-65535 5 'substation 0, base: item 1 is 65535, so the last of its 2 binary inputs is 65536 above, where 65535 is the highest' \
    'binary=[1, 1]' 'base=[65535, 0, 0, 0, 0]'
{ cat plan.toml && sed -n '/substation/,$p' plan.toml; } >wrong.toml
expect takes-no-shared-index 1 'refused plan 6' '' outstation --plan wrong.toml $rules
says says-which-index-is-shared 'dnp: wrong.toml: substation 0, base: by item 4 its binary outputs share an index above with those of substation 1'
printf '\xff' >wrong.toml
expect takes-no-plan-that-is-no-text 1 'refused plan 1' '' outstation --plan wrong.toml $rules
says says-that-it-is-no-toml 'dnp: wrong.toml: line 1, column 1: the plan is no TOML: invalid UTF-8'
expect takes-no-station-of-another-plan 2 '' '' outstation --plan plan.toml --port "$port" --station 1
expect refuses-the-plan-before-the-station 1 'refused plan 1' '' outstation --plan wrong.toml --port "$port" --station 1
for words in '' '--station 0' "$rules" '--plan plan.toml --port 0 --station 0' '--plan none.toml --port 65536 --station 0' \
    '--plan none.toml --port +1 --station 0' "--plan none.toml --port $port --station x" "--plan none.toml $rules --connections 0" \
    "--plan none.toml $rules --connections 1000001" "--plan none.toml $rules --rounds 1"; do
    expect "takes-no-words:outstation $words" 2 '' '' outstation $words
done

# What Debian's tshark reads in a capture of what the station sends, where it is installed and may capture. Debian's nmap
# (7.93) has no script for DNP3 among its 604, so none is tried.
if tshark -D 2>/dev/null | grep -qw lo; then
    serve
    tshark -i lo -f "tcp port $port" -a duration:8 -w capture >/dev/null 2>watched &
    watching=$!
    for _ in {1..50}; do
        grep -q Capturing watched && break
        sleep 0.1
    done
    sleep 1
    talks answers-under-a-capture <<'LINES'
link C9 0B
> C0 01 3C 02 06 3C 03 06 3C 04 06 3C 01 06
< C0 81 80 00 0A 02 01 00 00 05 00 01 01 01 01 01 01
> C1 02 50 01 00 07 07 00
< C1 81 00 00
> C2 05 0C 01 28 01 00 05 00 03 01 00 00 00 00 00 00 00 00 00
< C2 81 00 00 0C 01 28 01 00 05 00 03 01 00 00 00 00 00 00 00 00 00
LINES
    ended counts-under-a-capture 'served 3'
    wait "$watching"
    # sent FILTER: how many packets of the station's the filter finds
    sent() { tshark -r capture -d "tcp.port==$port,dnp3" -Y "tcp.srcport == $port and dnp3 and ($1)" 2>/dev/null | wc -l; }
    echo "$(sent 'dnp3.al.func == 0x81 or dnp3.ctl.secfunc == 11') $(sent '_ws.malformed or _ws.expert.severity >= 0x600000')" >out
    judge is-read-without-a-complaint 0 '4 0' 0
    # The same capture, both ways, by `dnp decode`: what master.py was told to send, and what came back
    tshark -r capture -F pcap -w classic 2>/dev/null
    "$dnp" decode --pcap classic </dev/null 2>err | sed -E 's/^[0-9]+ +//' >out
    judge decodes-a-master-of-another-make 0 '2>10 C9 REQUEST_LINK_STATUS 0 octets, words good
10>2 0B LINK_STATUS 0 octets, words good
2>10 C4 UNCONFIRMED_USER_DATA 15 octets, words good
transport FIR FIN 0
request seq 0 fir fin READ
60.2 all
60.3 all
60.4 all
60.1 all
10>2 44 UNCONFIRMED_USER_DATA 18 octets, words good
transport FIR FIN 0
response seq 0 fir fin, iin 80 00 DEVICE_RESTART
10.2 0..5: 0 = 0 flags 01 ONLINE
10.2 0..5: 1 = 0 flags 01 ONLINE
10.2 0..5: 2 = 0 flags 01 ONLINE
10.2 0..5: 3 = 0 flags 01 ONLINE
10.2 0..5: 4 = 0 flags 01 ONLINE
10.2 0..5: 5 = 0 flags 01 ONLINE
2>10 C4 UNCONFIRMED_USER_DATA 9 octets, words good
transport FIR FIN 1
request seq 1 fir fin WRITE
80.1 7..7: 7 = 0
10>2 44 UNCONFIRMED_USER_DATA 5 octets, words good
transport FIR FIN 1
response seq 1 fir fin, iin 00 00
2>10 C4 UNCONFIRMED_USER_DATA 21 octets, words good
transport FIR FIN 2
request seq 2 fir fin DIRECT_OPERATE
12.1 x1: 5 code 03 count 1 on 0 off 0 status 0
10>2 44 UNCONFIRMED_USER_DATA 23 octets, words good
transport FIR FIN 2
response seq 2 fir fin, iin 00 00
12.1 x1: 5 code 03 count 1 on 0 off 0 status 0' "${PIPESTATUS[0]}"
else
    echo "(no capture: there is no tshark, or it may not capture)"
fi
