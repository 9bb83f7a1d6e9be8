#!/bin/bash
# What `dnp sim` writes to look at, from the shell: a trace, a chart, a capture, and the report as JSON. The lines of the
# traces were worked out by hand.
. "$(dirname "${BASH_SOURCE[0]}")/../expect.bash"

lf=$'\n'
examples=$top/examples
plan=$examples/plan.toml
looks=$top/tests/shell/looks.py

# looked NAME PLAN: runs the file `script` with all that can be looked at, which leaves NAME's files; what is printed, and
# the exit status, are those of a run without. What is written is held against the trace, and the JSON against the text.
looked() {
    local got=0 wanted=0
    "$dnp" sim --plan "$2" <script >"$1.text" 2>err || wanted=$?
    "$dnp" sim --plan "$2" --trace "$1.trace" --chart "$1.svg" --capture "$1.pcap" <script >out 2>err || got=$?
    judge "prints-the-same:$1" "$wanted" "$(<"$1.text")" "$got"
    python3 "$looks" chart "$1" "$1.svg" "$1.trace"
    python3 "$looks" capture "$1" "$1.pcap" "$1.trace"
    "$dnp" decode --pcap "$1.pcap" </dev/null >"$1.decoded" 2>err
    python3 "$looks" decoded "$1" "$1.decoded" "$1.trace"
    "$dnp" sim --plan "$2" --json <script >"$1.json" 2>err
    python3 "$looks" report "$1" "$1.json" "$1.text"
    dissected "$1"
}
# dissected NAME: tshark finds in the capture as many link frames as arrived, and nothing wrong with check words, checksums
# or forms. An indication that the station means (as of events that were lost) it calls an abnormality.
dissected() {
    command -v tshark >/dev/null || return 0
    local words='-o ip.check_checksum:TRUE -o tcp.check_checksum:TRUE -r'
    local bad='_ws.malformed or _ws.expert.severity >= 0x600000 or ip.checksum.status == 0 or tcp.checksum.status == 0 or dnp.hdr.CRC.status == 0 or dnp.data_chunk.CRC.status == 0'
    {
        # shellcheck disable=SC2086
        tshark $words "$1.pcap" -Y "dnp.hdr.CRC.status == 1" 2>/dev/null | wc -l
        # shellcheck disable=SC2086
        tshark $words "$1.pcap" -Y "$bad" -T fields -e _ws.expert.message 2>/dev/null | grep -v '^IIN Abnormality$'
    } >out
    judge "dissected:$1" 0 "$(grep -c -E '^[^ ]+ link [^ ]+ [^ ]+ (arrives|repeated) ' "$1.trace")" 0
}
command -v tshark >/dev/null || echo "(no capture is dissected: there is no tshark)"

# The scripts of examples/, each on the plan of its name, or else on plan.toml
for file in "$examples"/*.script; do
    name=${file##*/} && name=${name%.script}
    cp "$file" script
    if [ -e "$examples/$name.toml" ]; then looked "$name" "$examples/$name.toml"; else looked "$name" "$plan"; fi
done
cp "$examples/a_lost_confirm.svg" out
judge the-chart-of-the-examples 0 "$(<a_lost_confirm.svg)" 0

# traces NAME PLAN INPUT LINE..: the trace has these lines
traces() {
    printf '%s' "$3" >script
    looked "$1" "$2"
    cp "$1.trace" out
    judge "trace-of-$1" 0 "$(printf '%s\n' "${@:4}")" 0
}
events='60.2 all, 60.3 all, 60.4 all'
restarted='iin 80 00'
traces a-lost-confirm "$plan" "$(<"$examples/a_lost_confirm.script")" \
    "0 link 0 down sent READ seq 0 fir fin, $events" \
    "0 link 0 down arrives READ seq 0 fir fin, $events" \
    "0 link 0 up sent RESPONSE seq 0 fir fin con $restarted, 2.2 x1" \
    "0 link 0 up arrives RESPONSE seq 0 fir fin con $restarted, 2.2 x1" \
    "0 link 0 down sent CONFIRM seq 0 fir fin" \
    "0 link 0 down lost CONFIRM seq 0 fir fin" \
    "0 link 0 down sent READ seq 1 fir fin, $events" \
    "0 link 0 down arrives READ seq 1 fir fin, $events" \
    "0 link 0 up sent RESPONSE seq 1 fir fin con $restarted, 2.2 x1" \
    "0 link 0 up arrives RESPONSE seq 1 fir fin con $restarted, 2.2 x1" \
    "0 link 0 down sent CONFIRM seq 1 fir fin" \
    "0 link 0 down arrives CONFIRM seq 1 fir fin"
# A repeat and its two confirms, of which one is damaged and one stands; a damage that is none
traces all-that-can-happen "$plan" "open 0${lf}poll 0 1${lf}pass 7${lf}damage 0 down 056405C001000004E921${lf}flush 0 down${lf}pass 5${lf}repeat 0 up${lf}lose 0 up${lf}change 0 binary 0 1 01 1000${lf}poll 0 1${lf}flush 0 down${lf}repeat 0 up${lf}flush 0 up${lf}damage 0 down 00${lf}hangup 0 outstation${lf}time 0 1000$lf" \
    "0 link 0 down sent READ seq 0 fir fin, 60.2 all" \
    "7 link 0 down arrives READ seq 0 fir fin, 60.2 all" \
    "7 link 0 up sent RESPONSE seq 0 fir fin $restarted" \
    "12 link 0 up repeated RESPONSE seq 0 fir fin $restarted" \
    "12 link 0 up lost RESPONSE seq 0 fir fin $restarted" \
    "12 link 0 down sent READ seq 1 fir fin, 60.2 all" \
    "12 link 0 down arrives READ seq 1 fir fin, 60.2 all" \
    "12 link 0 up sent RESPONSE seq 1 fir fin con $restarted, 2.2 x1" \
    "12 link 0 up repeated RESPONSE seq 1 fir fin con $restarted, 2.2 x1" \
    "12 link 0 down sent CONFIRM seq 1 fir fin" \
    "12 link 0 up arrives RESPONSE seq 1 fir fin con $restarted, 2.2 x1" \
    "12 link 0 down damaged CONFIRM seq 1 fir fin" \
    "12 link 0 down sent WRITE seq 2 fir fin, 50.1 x1" \
    "12 link 0 down stands WRITE seq 2 fir fin, 50.1 x1"
# Three events of one class that lie close together go after the time of the first
traces events-after-a-common-time "$plan" "open 0${lf}change 0 binary 0 1 01 1000${lf}change 0 binary 0 0 01 1005${lf}change 0 binary 0 1 01 66535${lf}poll 0 1${lf}flush 0 down$lf" \
    "0 link 0 down sent READ seq 0 fir fin, 60.2 all" \
    "0 link 0 down arrives READ seq 0 fir fin, 60.2 all" \
    "0 link 0 up sent RESPONSE seq 0 fir fin con $restarted, 51.1 x1, 2.3 x3" \
    "0 link 0 up stands RESPONSE seq 0 fir fin con $restarted, 51.1 x1, 2.3 x3"
# A fragment of four segments, of which one is lost and two are cleared before they come to the front: 100 events of 7
# octets after an index of 2, too far apart for a common time, behind a header of 5, and a control octet, a function and
# two of indications, 909 in all
{ echo 'open 0' && seq 1 100 | awk '{ print "change 0 binary 0 " $1 % 2 " 01 " $1 * 100000 }' && printf '%s\n' 'poll 0 123' 'flush 0 down' 'deliver 0 up' 'lose 0 up' 'open 0'; } >script
traces a-long-fragment "$plan" "$(<script)" \
    "0 link 0 down sent READ seq 0 fir fin, $events" \
    "0 link 0 down arrives READ seq 0 fir fin, $events" \
    "0 link 0 up sent segment FIR 0" "0 link 0 up sent segment 1" "0 link 0 up sent segment 2" "0 link 0 up sent segment FIN 3" \
    "0 link 0 up arrives segment FIR 0" "0 link 0 up lost segment 1" "0 link 0 up dropped segment 2" "0 link 0 up dropped segment FIN 3"
# A control on both links, with other links beside it
sed -n '/^\[\[/,$p' "$plan" | sed 's/^base = .*/base = [200, 0, 0, 300, 0]/' >second.toml
cat "$plan" second.toml >two.toml
both() { printf '%s\n' "0 link $1 $2 sent $3" "0 link $1 $2 arrives $3"; }
traces a-control-of-substation-1 two.toml "open 0${lf}open 1${lf}open above${lf}issue 1 block 0 3 1 0 0${lf}control 1$lf" \
    "$(for link in above 1; do
        both $link down 'SELECT seq 0 fir fin, 12.1 x1'
        both $link up "RESPONSE seq 0 fir fin $restarted, 12.1 x1"
        both $link down 'OPERATE seq 1 fir fin, 12.1 x1'
        both $link up "RESPONSE seq 1 fir fin $restarted, 12.1 x1"
    done)"
# The second centre's link, whose select finds the point reserved until the first centre's has passed
traces two-centres two.toml "open 0${lf}open above2${lf}open above${lf}change 0 binary 0 1 01 1000${lf}round 0${lf}round above2${lf}issue 0 block 0 3 1 0 0${lf}relay above${lf}deliver above down${lf}issue2 0 block 0 4 1 0 0${lf}relay above2${lf}flush above2 down${lf}flush above2 up$lf" \
    "0 link 0 down sent READ seq 0 fir fin, $events" \
    "0 link 0 down arrives READ seq 0 fir fin, $events" \
    "0 link 0 up sent RESPONSE seq 0 fir fin con $restarted, 2.2 x1" \
    "0 link 0 up arrives RESPONSE seq 0 fir fin con $restarted, 2.2 x1" \
    "$(both 0 down 'CONFIRM seq 0 fir fin')" \
    "$(both above2 down "READ seq 0 fir fin, $events")" \
    "$(both above2 up "RESPONSE seq 0 fir fin con $restarted, 2.2 x1")" \
    "$(both above2 down 'CONFIRM seq 0 fir fin')" \
    "$(both above down 'SELECT seq 0 fir fin, 12.1 x1')" \
    "0 link above up sent RESPONSE seq 0 fir fin iin 82 00, 12.1 x1" \
    "$(both above2 down 'SELECT seq 1 fir fin, 12.1 x1')" \
    "$(both above2 up "RESPONSE seq 1 fir fin $restarted, 12.1 x1")" \
    "0 link above up stands RESPONSE seq 0 fir fin iin 82 00, 12.1 x1"
# Unsolicited responses: one that is lost when its line is, one below a centre that asks for none
sed 's/^unsolicited = .*/unsolicited = true/' "$plan" >unsolicited.toml
traces an-unsolicited-response unsolicited.toml "open 0${lf}flush 0 up${lf}flush 0 down${lf}enable 0 12${lf}flush 0 down${lf}restart concentrator$lf" \
    "0 link 0 up sent UNSOLICITED_RESPONSE seq 0 fir fin con uns $restarted" \
    "0 link 0 up arrives UNSOLICITED_RESPONSE seq 0 fir fin con uns $restarted" \
    "0 link 0 down sent CONFIRM seq 0 fir fin uns" \
    "0 link 0 down arrives CONFIRM seq 0 fir fin uns" \
    "0 link 0 down sent ENABLE_UNSOLICITED seq 0 fir fin, 60.2 all, 60.3 all" \
    "0 link 0 down arrives ENABLE_UNSOLICITED seq 0 fir fin, 60.2 all, 60.3 all" \
    "0 link 0 up sent RESPONSE seq 0 fir fin $restarted" \
    "0 link 0 up dropped RESPONSE seq 0 fir fin $restarted"
# 34 responses, of which 32 are lost: the two behind them are dropped, and nobody has seen them
{ printf '%s\n' 'open 0' 'poll 0 1' && yes 'repeat 0 down' | head -n 34 && yes 'lose 0 up' | head -n 32; } >script
looked a-line-that-breaks "$plan"
cut -d ' ' -f 4-6 a-line-that-breaks.trace | LC_ALL=C sort | uniq -c | sed 's/^ *//' >out
judge trace-of-a-line-that-breaks 0 "34 down repeated READ${lf}1 down sent READ${lf}1 down stands READ${lf}2 up dropped unseen${lf}32 up lost RESPONSE${lf}32 up sent RESPONSE${lf}2 up sent unseen" 0
# 40 responses that stand at the end: of those after the 32nd nobody has seen more than that
{ printf '%s\n' 'open 0' 'poll 0 1' && yes 'repeat 0 down' | head -n 40; } >script
looked more-responses-than-are-seen "$plan"
cut -d ' ' -f 4-6 more-responses-than-are-seen.trace | LC_ALL=C sort | uniq -c | sed 's/^ *//' >out
judge trace-of-more-responses-than-are-seen 0 "40 down repeated READ${lf}1 down sent READ${lf}1 down stands READ${lf}32 up sent RESPONSE${lf}8 up sent unseen${lf}32 up stands RESPONSE${lf}8 up stands unseen" 0
# Two units that say the same one after the other, thirty times over: 60 segments
{ printf '%s\n' 'open 0' && yes 'round 0' | head -n 30; } >script
looked thirty-rounds "$plan"

# On standard output
printf 'open 0\npoll 0 1\n' >script
{ echo '0 link 0 down sent READ seq 0 fir fin, 60.2 all' && echo '0 link 0 down stands READ seq 0 fir fin, 60.2 all' && "$dnp" sim --plan "$plan" <script; } >wanted
expect traces-to-standard-output 0 "$(<wanted)" "$(<script)$lf" sim --plan "$plan" --trace -

# A chart that is cut
{ echo 'open 0' && yes 'round 0' | head -n 1000; } >script
"$dnp" sim --plan "$plan" --chart long.svg <script >out 2>err
python3 - >out <<'P'
from xml.etree import ElementTree
print([it.text for it in ElementTree.parse("long.svg").iter("{http://www.w3.org/2000/svg}text") if it.attrib["class"] == "end"])
P
# (a line for each round, and three units that are sent and arrive... but a round without events has no confirm)
judge says-where-a-chart-is-cut 0 "['cut here: 1500 of 5001 rows are shown']" 0

# Nothing is written where a text is refused, or nothing is asked for; what can't be written is said first
expect refuses-a-script 1 'refused line 2' "open 0${lf}open$lf" sim --plan "$plan" --trace t --chart c --capture p
expect refuses-a-script-in-JSON 1 'refused line 2' "open 0${lf}open$lf" sim --plan "$plan" --json
sed 's/^retries = 0/retries = 4/' "$plan" >changed.toml
expect refuses-a-plan 1 'refused plan 3' "open 0$lf" sim --plan changed.toml --trace t --chart c --capture p --json
find . -maxdepth 1 -name '[tcp]' >out
judge writes-nothing-of-what-is-refused 0 '' 0
for option in trace chart capture; do
    expect "has-no-such-folder-for-the-$option" 3 '' "open 0$lf" sim --plan "$plan" --$option absent/file
    says "says-so-of-the-$option" 'dnp: absent/file: No such file or directory (os error 2)'
done
got=0 && printf 'open 0\npoll 0 1\n' | "$dnp" sim --plan "$plan" --trace - >/dev/full 2>err || got=$?
: >out
judge tells-that-the-output-of-a-trace-is-lost 3 '' "$got"
got=0 && "$dnp" sim --plan "$plan" --json </dev/null >/dev/full 2>err || got=$?
judge tells-that-the-output-of-JSON-is-lost 3 '' "$got"

# What can't be written together is refused before anything is read
# misuses NAME WHY WORDS..
misuses() {
    expect "refuses-$1" 2 '' '' sim --plan "$plan" "${@:3}"
    says "says-why-it-refuses-$1" "error: $2"$'\n\n'"For more information, try '--help'."
}
misuses a-chart-on-standard-output "only '--trace' can go to standard output" --chart -
misuses a-trace-before-an-object "'--json' and '--trace -' can't be used together" --json --trace -
misuses two-things-in-one-file "'--trace', '--chart' and '--capture' can't name one file" --chart seen --capture seen
misuses the-plan-as-a-chart "the plan's file can't be written over" --chart "$plan"
[ ! -e seen ] && echo ok writes-nothing-of-them || echo FAILED writes-nothing-of-them
