#!/bin/bash
# `dnp check` from the shell: a plan alone, a plan with the file of its network, as a table, as CSV and as JSON; each refusal
# with its whole text; and the commands of docs/network.md.
. "$(dirname "${BASH_SOURCE[0]}")/../expect.bash"

cat >plan.toml <<'PLAN'
confirm_ms = 5000
response_ms = 10000
select_ms = 5000
retries = 0
unsolicited = false
queue = [100, 100, 100, 100, 100, 100, 100, 100, 100]
queue2 = [100, 100, 100, 100, 100, 100, 100, 100, 100]
[[substation]]
lanes = [100, 100, 100, 100, 100, 100, 100, 100, 100]
binary = [1, 0]
counter = [2]
analog = [3]
deadband = [5]
outputs = 1
setpoints = 1
base = [100, 0, 7, 200, 0]
[[substation]]
lanes = [100, 100, 100, 100, 100, 100, 100, 100, 100]
binary = [3]
counter = []
analog = []
deadband = []
outputs = 0
setpoints = 0
base = [102, 0, 0, 0, 0]
PLAN

# network LINES..: the file of a network
network() { printf '%s\n' "$@" >n.toml; }
# points RECORDS..: the file of its points
points() { printf '%s\r\n' 'substation,kind,index,name,unit,scale,zero,one' "$@" >points.csv; }
ends='where a host and port belong, as 10.0.0.1:20000, [2001:db8::1]:20000 or name:20000'
address='where a link address from 0 to 65519 belongs'
one='at = "10.0.0.1:20000"'
two='at = "10.0.0.2:20000"'
sub='[[substation]]'

# A plan alone
expect a-plan-alone 0 'substation kind     index above class   deadband  name
0          binary       0   100     1          -  -
0          binary       1   101     0          -  -
0          counter      0     0     2          -  -
0          analog       0     7     3          5  -
0          output       0   200     -          -  -
0          setpoint     0     0     -          -  -
1          binary       0   102     3          -  -' '' check --plan plan.toml
says says-nothing-of-a-plan-that-fits ''
expect a-plan-alone-as-json 0 '{"name":null,"concentrator":null,"substations":null,"disagree":null,"points":[{"substation":0,"kind":"binary","index":0,"above":100,"class":1,"deadband":null,"name":null,"unit":null,"scale":null,"zero":null,"one":null},{"substation":0,"kind":"binary","index":1,"above":101,"class":0,"deadband":null,"name":null,"unit":null,"scale":null,"zero":null,"one":null},{"substation":0,"kind":"counter","index":0,"above":0,"class":2,"deadband":null,"name":null,"unit":null,"scale":null,"zero":null,"one":null},{"substation":0,"kind":"analog","index":0,"above":7,"class":3,"deadband":5,"name":null,"unit":null,"scale":null,"zero":null,"one":null},{"substation":0,"kind":"output","index":0,"above":200,"class":null,"deadband":null,"name":null,"unit":null,"scale":null,"zero":null,"one":null},{"substation":0,"kind":"setpoint","index":0,"above":0,"class":null,"deadband":null,"name":null,"unit":null,"scale":null,"zero":null,"one":null},{"substation":1,"kind":"binary","index":0,"above":102,"class":3,"deadband":null,"name":null,"unit":null,"scale":null,"zero":null,"one":null}]}' '' check --plan plan.toml --json

# All keys, and none but those that are needed
mkdir -p folder
network 'name = "Net"' 'points = "points.csv"' '[concentrator]' 'listen = "0.0.0.0:20100"' 'listen2 = "[::]:20101"' 'at = "scada:20100"' \
    'at2 = "[2001:DB8:0::1]:20101"' 'address = 90' 'centre = 11' 'centre2 = 13' "$sub" "$one" 'name = "A ""quoted"" one"' 'listen = "0.0.0.0:20000"' \
    'address = 0' 'master = 65519' "$sub" 'at = "sub-1.grid_2.example:65535"'
sed -i 's/A ""quoted"" one/A \\"quoted\\" one, here/' n.toml
points '0,binary,1,"Breaker, 1",,,open,closed' '0,analog,0,Voltage,kV,-0.01,,' '0,output,0,Trip,,,,' '0,setpoint,0,Tap,,1.5,,' '0,counter,0,Energy,kWh,,,'
mv n.toml points.csv folder
expect all-keys 0 'network Net
station        at                       listens at               address  peer  name
concentrator   scada:20100              0.0.0.0:20100                 90    11  -
concentrator2  [2001:db8::1]:20101      [::]:20101                    90    13  -
substation 0   10.0.0.1:20000           0.0.0.0:20000                  0 65519  A "quoted" one, here
substation 1   sub-1.grid_2.example:65535 sub-1.grid_2.example:65535      11     2  -

substation kind     index above class   deadband  name
0          binary       0   100     1          -  -
0          binary       1   101     0          -  Breaker, 1
0          counter      0     0     2          -  Energy [kWh]
0          analog       0     7     3          5  Voltage [kV]
0          output       0   200     -          -  Trip
0          setpoint     0     0     -          -  Tap
1          binary       0   102     3          -  -' '' check --plan plan.toml --network folder/n.toml
says says-nothing-of-files-that-fit ''
"$dnp" check --plan plan.toml --network folder/n.toml --csv >out 2>err
printf '%s\r\n' station,name,at,listen,address,peer,kind,index,above,class,deadband,point,unit,scale,zero,one \
    'concentrator,,scada:20100,0.0.0.0:20100,90,11,,,,,,,,,,' 'concentrator2,,[2001:db8::1]:20101,[::]:20101,90,13,,,,,,,,,,' \
    '0,"A ""quoted"" one, here",10.0.0.1:20000,0.0.0.0:20000,0,65519,,,,,,,,,,' \
    '1,,sub-1.grid_2.example:65535,sub-1.grid_2.example:65535,11,2,,,,,,,,,,' '0,,,,,,binary,0,100,1,,,,,,' \
    '0,,,,,,binary,1,101,0,,"Breaker, 1",,,open,closed' '0,,,,,,counter,0,0,2,,Energy,kWh,,,' '0,,,,,,analog,0,7,3,5,Voltage,kV,-0.01,,' \
    '0,,,,,,output,0,200,,,Trip,,,,' '0,,,,,,setpoint,0,0,,,Tap,,1.5,,' '1,,,,,,binary,0,102,3,,,,,,' >want
cmp -s want out && echo ok all-keys-as-csv || { echo FAILED all-keys-as-csv && diff want out; }
"$dnp" check --plan plan.toml --network folder/n.toml --json >out 2>err
python3 - out <<'PYTHON' && echo ok all-keys-as-json || echo FAILED all-keys-as-json
import json, sys
got = json.load(open(sys.argv[1], encoding="utf-8"))
assert got["name"] == "Net"
assert got["concentrator"] == {"at": "scada:20100", "listen": "0.0.0.0:20100", "at2": "[2001:db8::1]:20101", "listen2": "[::]:20101",
                               "address": 90, "centre": 11, "centre2": 13}
assert got["substations"] == [
    {"substation": 0, "name": 'A "quoted" one, here', "at": "10.0.0.1:20000", "listen": "0.0.0.0:20000", "address": 0, "master": 65519},
    {"substation": 1, "name": None, "at": "sub-1.grid_2.example:65535", "listen": "sub-1.grid_2.example:65535", "address": 11, "master": 2}]
assert got["disagree"] == []
assert len(got["points"]) == 7
assert got["points"][3] == {"substation": 0, "kind": "analog", "index": 0, "above": 7, "class": 3, "deadband": 5, "name": "Voltage",
                            "unit": "kV", "scale": "-0.01", "zero": None, "one": None}
PYTHON
network "$sub" "$one" "$sub" "$two"
expect usual-values 0 'station        at                       listens at               address  peer  name
concentrator   127.0.0.1:20100          127.0.0.1:20100                9     1  -
substation 0   10.0.0.1:20000           10.0.0.1:20000                10     2  -
substation 1   10.0.0.2:20000           10.0.0.2:20000                11     2  -

substation kind     index above class   deadband  name
0          binary       0   100     1          -  -
0          binary       1   101     0          -  -
0          counter      0     0     2          -  -
0          analog       0     7     3          5  -
0          output       0   200     -          -  -
0          setpoint     0     0     -          -  -
1          binary       0   102     3          -  -' '' check --plan plan.toml --network n.toml
network '[concentrator]' 'listen2 = "127.0.0.1:20101"' "$sub" "$one" "$sub" "$two"
"$dnp" check --plan plan.toml --network n.toml >out 2>err
grep -q '^concentrator2  127.0.0.1:20101          127.0.0.1:20101                9     3  -$' out && echo ok usual-second-centre || echo FAILED usual-second-centre

# Unsolicited responses: what the plan says of its outstations, and the network of their masters, link by link
sed 's/^unsolicited = false$/unsolicited = true/' plan.toml >on.toml
# disagrees NAME PLAN WANTED LINES..: plan and network disagree by the wanted lines, and neither is refused. A table ends with these lines;
# beside CSV they are on standard error, and in JSON they are strings of a list.
disagrees() {
    local name=$1 plan=$2 wanted=$3 got=0
    shift 3
    network "$@"
    "$dnp" check --plan "$plan" --network n.toml >all 2>err || got=$?
    grep '^disagree: ' all >out
    judge "disagrees-$name" 0 "$wanted" "$got"
    says "says-nothing-beside:$name" ''
    "$dnp" check --plan "$plan" --network n.toml --csv >all 2>err || got=$?
    grep disagree all >out
    judge "has-records-alone-$name" 0 '' "$got"
    says "says-beside-records:$name" "$wanted"
    "$dnp" check --plan "$plan" --network n.toml --json >all 2>err || got=$?
    python3 -c 'import json; [print("disagree:", it) for it in json.load(open("all", encoding="utf-8"))["disagree"]]' >out
    judge "disagrees-as-json-$name" 0 "$wanted" "$got"
    says "says-nothing-beside-json:$name" ''
}
unsent='its master enables classes, but it sends no event unsolicited'
unasked='its master enables no class, so it sends no event unsolicited'
off='unsolicited = false in the plan, unsolicited'
on='unsolicited = true in the plan, unsolicited = "" in the network file'
polled='events come by the event poll, every'
network "$sub" "$one" 'unsolicited = "1"' 'events_ms = 100' "$sub" "$two"
expect disagrees-behind-the-table 0 "station        at                       listens at               address  peer  name
concentrator   127.0.0.1:20100          127.0.0.1:20100                9     1  -
substation 0   10.0.0.1:20000           10.0.0.1:20000                10     2  -
substation 1   10.0.0.2:20000           10.0.0.2:20000                11     2  -

substation kind     index above class   deadband  name
0          binary       0   100     1          -  -
0          binary       1   101     0          -  -
0          counter      0     0     2          -  -
0          analog       0     7     3          5  -
0          output       0   200     -          -  -
0          setpoint     0     0     -          -  -
1          binary       0   102     3          -  -

disagree: substation 0: $off = \"1\" in the network file: $unsent; $polled 100 ms" '' check --plan plan.toml --network n.toml
disagrees neither-sends-nor-enables plan.toml '' "$sub" "$one" 'events_ms = "never"' "$sub" "$two"
disagrees sends-and-enables on.toml '' '[defaults]' 'unsolicited = "1"' '[centre]' 'unsolicited = "32"' "$sub" "$one" "$sub" "$two" 'unsolicited = "3"'
disagrees enables-in-vain plan.toml "disagree: concentrator towards centre 1: $off = \"2\" in the network file: $unsent; $polled 500 ms
disagree: concentrator towards centre 2: $off = \"2\" in the network file: $unsent; $polled 500 ms
disagree: substation 0 (A \"quoted\" one): $off = \"13\" in the network file: $unsent; events_ms is \"never\", so events wait for 30000 ms of silence or for an integrity poll" \
    '[concentrator]' 'listen2 = "127.0.0.1:20101"' '[defaults]' 'unsolicited = "31"' '[centre]' 'unsolicited = "2"' 'events_ms = 500' \
    "$sub" "$one" 'name = "A \"quoted\" one"' "$sub" "$two" 'unsolicited = ""'
disagrees enables-none on.toml "disagree: concentrator towards centre 1: $on: $unasked; $polled 2000 ms
disagree: substation 0: $on: $unasked; events_ms is \"never\", so events wait for 5000 ms of silence or for an integrity poll
disagree: substation 1 (B\\n): $on: $unasked; $polled 2000 ms" \
    "$sub" "$one" 'events_ms = "never"' 'keepalive_ms = 5000' "$sub" "$two" 'name = "B\n"'

# refuses NAME REASON LINES..: the network is refused, and standard error says why
refuses() {
    local name=$1 reason=$2
    shift 2
    network "$@"
    expect "refuses-$name" 1 '' '' check --plan plan.toml --network n.toml
    says "says-why:$name" "dnp: n.toml: $reason"
}
refuses no-toml 'line 2, column 10: the network is no TOML: invalid value, expected a string, number, boolean, date-time, array or inline table' 'name = "Net"' 'points = '
refuses a-key-twice 'line 2, column 1: the network is no TOML: duplicate key' 'name = "Net"' 'name = "Net"'
refuses no-substations "substation is missing, where a table [[substation]] for each substation of the plan belongs" 'name = "Net"'
refuses too-few-substations 'substation: 1 in this file, where the plan has 2' "$sub" "$one"
refuses too-many-substations 'substation: 3 in this file, where the plan has 2' "$sub" "$one" "$sub" "$two" "$sub" 'at = "a:1"'
refuses a-number-for-substations "line 1: substation: a whole number, where a table [[substation]] for each substation of the plan belongs" 'substation = 2'
refuses numbers-for-substations 'line 1: substation 0: a whole number, where a table belongs' 'substation = [1, 2]'
refuses a-number-for-a-name 'line 1: name: a whole number, where a string with a character or more belongs' 'name = 5' "$sub" "$one" "$sub" "$two"
refuses an-empty-name 'line 1: name: an empty string, where a string with a character or more belongs' 'name = ""' "$sub" "$one" "$sub" "$two"
refuses a-list-for-points 'line 1: points: a list, where the path of a file belongs, as "points.csv"' 'points = ["a"]' "$sub" "$one" "$sub" "$two"
refuses a-date-for-a-concentrator 'line 1: concentrator: a date or a time, where a table [concentrator] belongs' 'concentrator = 2026-01-01' "$sub" "$one" "$sub" "$two"
refuses a-substation-without-a-host "line 3: substation 1, at is missing, $ends" "$sub" "$one" "$sub" 'name = "B"'
refuses a-truth-for-a-host "line 2: substation 0, at: true or false, $ends" "$sub" 'at = true' "$sub" "$two"
while IFS='|' read -r name text why; do
    refuses "$name" "line 4: substation 1, at: '$text' $why, $ends" "$sub" "$one" "$sub" "at = \"$text\""
done <<'CASES'
a-host-without-a-port|10.0.0.2|without a port behind the host
an-ipv6-host-without-a-port|[::1]|without a port behind the host
something-behind-a-bracket|[::1]20000|without a port behind the host
an-empty-host-and-port||without a port behind the host
port-0|10.0.0.2:0|with a port that is no number from 1 to 65535
port-65536|10.0.0.2:65536|with a port that is no number from 1 to 65535
a-port-with-a-sign|10.0.0.2:+1|with a port that is no number from 1 to 65535
an-empty-port|10.0.0.2:|with a port that is no number from 1 to 65535
an-open-bracket|[::1:20000|with a bracket that isn't closed
an-ipv4-address-in-brackets|[10.0.0.2]:20000|with no IPv6 address in the brackets
a-zone|[fe80::1%2]:20000|with no IPv6 address in the brackets
an-ipv6-address-without-brackets|::1:20000|with more than one colon, and no brackets around an IPv6 address
a-long-ipv6-address-without-brackets|fe80::1:2:20000|with more than one colon, and no brackets around an IPv6 address
an-octet-over-255|10.0.0.300:20000|with digits and dots that are no IPv4 address
three-octets|10.0.2:20000|with digits and dots that are no IPv4 address
an-empty-host|:20000|with a host that is neither an address nor a name
a-blank-in-a-name|sub 1:20000|with a host that is neither an address nor a name
CASES
long=$(printf 'a%.0s' {1..254})
refuses a-long-name "line 4: substation 1, at: '${long:0:60}' and more with a host that is neither an address nor a name, $ends" "$sub" "$one" "$sub" "at = \"$long:1\""
refuses a-name-of-nobody "line 3: substation 0, name: an empty string, where a string with a character or more belongs" "$sub" "$one" 'name = ""' "$sub" "$two"
refuses another-listen "line 3: substation 0, listen: 'here' without a port behind the host, $ends" "$sub" "$one" 'listen = "here"' "$sub" "$two"
refuses address-65520 "line 3: substation 0, address: 65520, $address" "$sub" "$one" 'address = 65520' "$sub" "$two"
refuses a-negative-address "line 3: substation 0, address: -1, $address" "$sub" "$one" 'address = -1' "$sub" "$two"
refuses a-broken-address "line 3: substation 0, address: a number that isn't whole, $address" "$sub" "$one" 'address = 1.0' "$sub" "$two"
refuses an-address-in-quotes "line 3: substation 0, master: a string, $address" "$sub" "$one" 'master = "2"' "$sub" "$two"
refuses its-own-master "line 4: substation 0, master: 7, which is the station's own address, where another one belongs" "$sub" "$one" 'address = 7' 'master = 7' "$sub" "$two"
refuses the-address-of-the-usual-master "line 3: substation 0, master: 2, which is the station's own address, where another one belongs" "$sub" "$one" 'address = 2' "$sub" "$two"
refuses its-own-centre "line 2: concentrator, centre: 9, which is the station's own address, where another one belongs" '[concentrator]' 'centre = 9' "$sub" "$one" "$sub" "$two"
refuses its-own-second-centre "line 3: concentrator, centre2: 9, which is the station's own address, where another one belongs" '[concentrator]' 'listen2 = "a:1"' 'centre2 = 9' "$sub" "$one" "$sub" "$two"
polling='poll, events, unsolicited, time, events_ms, integrity_ms, keepalive_ms, response_ms and poll_ms'
refuses an-unknown-key "line 1: unknown key 'nmae', where name, points, defaults, centre, concentrator and substation are known" 'nmae = "Net"' "$sub" "$one" "$sub" "$two"
refuses an-unknown-table "line 5: unknown key 'center', where name, points, defaults, centre, concentrator and substation are known" "$sub" "$one" "$sub" "$two" '[center]'
refuses an-unknown-key-of-the-concentrator "line 2: concentrator, unknown key 'port', where listen, listen2, at, at2, address, centre and centre2 are known" '[concentrator]' 'port = 1' "$sub" "$one" "$sub" "$two"
refuses an-unknown-key-of-a-substation "line 5: substation 1, unknown key 'host', where at, name, listen, address, master, $polling are known" "$sub" "$one" "$sub" "$two" 'host = 1'
refuses an-unknown-key-of-all-substations "line 2: defaults, unknown key 'at', where $polling are known" '[defaults]' 'at = "a:1"' "$sub" "$one" "$sub" "$two"
refuses an-unknown-key-of-the-centres "line 2: centre, unknown key 'centre', where $polling are known" '[centre]' 'centre = 1' "$sub" "$one" "$sub" "$two"
refuses a-second-centre-that-is-not-served 'line 2: concentrator, at2: of a second centre, where listen2 is missing, at which it is served' '[concentrator]' 'at2 = "a:1"' "$sub" "$one" "$sub" "$two"
refuses the-address-of-a-second-centre-that-is-not-served 'line 2: concentrator, centre2: of a second centre, where listen2 is missing, at which it is served' '[concentrator]' 'centre2 = 3' "$sub" "$one" "$sub" "$two"
# (the plan's response_ms is 10000)
ms='where a whole number of milliseconds from'
refuses a-list-for-defaults 'line 1: defaults: a list, where a table [defaults] belongs' 'defaults = []' "$sub" "$one" "$sub" "$two"
refuses a-number-for-the-centres 'line 1: centre: a whole number, where a table [centre] belongs' 'centre = 1' "$sub" "$one" "$sub" "$two"
while IFS='|' read -r name key value reason; do
    refuses "$name" "line 5: substation 1, $key: $reason" "$sub" "$one" "$sub" "$two" "$key = $value"
    refuses "$name-of-all" "line 2: defaults, $key: $reason" '[defaults]' "$key = $value" "$sub" "$one" "$sub" "$two"
    refuses "$name-of-the-centres" "line 2: centre, $key: $reason" '[centre]' "$key = $value" "$sub" "$one" "$sub" "$two"
done <<CASES
class-4|poll|"1234"|'1234', where the digits of classes from 0 to 3 belong, each once, as "1230"
a-class-twice|poll|"1213"|'1213', where the digits of classes from 0 to 3 belong, each once, as "1230"
no-class-to-poll|poll|""|'', where the digits of classes from 0 to 3 belong, each once, as "1230"
a-number-for-classes|poll|1230|a whole number, where the digits of classes from 0 to 3 belong, each once, as "1230"
events-of-class-0|events|"0"|'0', where the digits of classes from 1 to 3 belong, each once, as "123"
no-class-of-events|events|""|'', where the digits of classes from 1 to 3 belong, each once, as "123"
unsolicited-class-0|unsolicited|"01"|'01', where the digits of classes from 1 to 3 belong, each once, or none, as ""
a-word-for-the-time|time|"often"|'often', where "on-need", "never" or a whole number of milliseconds from 1000 to 86400000 belongs
a-time-below-a-second|time|999|999, where "on-need", "never" or a whole number of milliseconds from 1000 to 86400000 belongs
a-truth-for-the-time|time|true|true or false, where "on-need", "never" or a whole number of milliseconds from 1000 to 86400000 belongs
a-period-of-99|events_ms|99|99, where "never" or a whole number of milliseconds from 100 to 86400000 belongs
a-negative-period|events_ms|-1|-1, where "never" or a whole number of milliseconds from 100 to 86400000 belongs
a-period-over-a-day|integrity_ms|86400001|86400001, where "never" or a whole number of milliseconds from 100 to 86400000 belongs
a-word-for-a-period|integrity_ms|"on-need"|'on-need', where "never" or a whole number of milliseconds from 100 to 86400000 belongs
a-silence-over-an-hour|keepalive_ms|3600001|3600001, $ms 1000 to 3600000 belongs
a-word-for-a-silence|keepalive_ms|"never"|a string, $ms 1000 to 3600000 belongs
a-response-over-the-plans|response_ms|10001|10001, $ms 1 to 10000, the plan's response_ms, belongs
a-response-of-0|response_ms|0|0, $ms 1 to 10000, the plan's response_ms, belongs
a-word-for-a-response|response_ms|"never"|a string, $ms 1 to the plan's response_ms belongs
a-whole-response-below-a-fragment|poll_ms|9999|9999, $ms 10000, its response_ms, to 36000000 belongs
a-whole-response-over-10-hours|poll_ms|36000001|36000001, $ms 10000, its response_ms, to 36000000 belongs
CASES
refuses a-whole-response-of-all-below-a-fragment "line 6: substation 0, poll_ms: 2000 from [defaults], where 3000 or more belongs, its response_ms" \
    '[defaults]' 'response_ms = 1000' 'poll_ms = 2000' "$sub" "$one" 'response_ms = 3000' "$sub" "$two"
refuses a-whole-response-below-that-of-all "line 5: substation 0, poll_ms: 999, $ms 1000, its response_ms, to 36000000 belongs" \
    '[defaults]' 'response_ms = 1000' "$sub" "$one" 'poll_ms = 999' "$sub" "$two"
network '[defaults]' 'response_ms = 1' 'unsolicited = "321"' '[centre]' 'poll = "0"' 'events = "3"' 'poll_ms = 10000' 'time = "never"' "$sub" "$one" \
    'poll = "3021"' 'unsolicited = ""' 'time = 86400000' 'events_ms = 100' 'integrity_ms = "never"' 'keepalive_ms = 1000' 'response_ms = 10000' \
    'poll_ms = 36000000' "$sub" "$two" 'poll_ms = 1'
"$dnp" check --plan plan.toml --network n.toml >out 2>err && [ ! -s err ] && echo ok all-keys-of-polling || echo FAILED all-keys-of-polling
own='where a host and port of its own belong'
refuses a-host-and-port-twice "line 4: substation 1, at: '10.0.0.1:20000', which substation 0 has too, $own" "$sub" "$one" "$sub" "$one"
refuses a-host-by-name-twice "line 4: substation 1, at: 'SUB.example:1', which substation 0 has too, $own" "$sub" 'at = "sub.EXAMPLE:1"' "$sub" 'at = "SUB.example:1"'
refuses an-ipv6-address-twice "line 4: substation 1, at: '[0:0::1]:1', which substation 0 has too, $own" "$sub" 'at = "[::1]:1"' "$sub" 'at = "[0:0::1]:1"'
refuses a-name-twice "line 6: substation 1, name: 'KIRCHBERG', which substation 0 has too, where a name of its own belongs" "$sub" "$one" 'name = "Kirchberg"' "$sub" "$two" 'name = "KIRCHBERG"'
refuses listening-twice "line 3: concentrator, listen2: '127.0.0.1:1', which stands under listen too, $own" '[concentrator]' 'listen = "127.0.0.1:1"' 'listen2 = "127.0.0.1:1"' "$sub" "$one" "$sub" "$two"
refuses a-concentrator-found-twice "line 5: concentrator, at2: 'A:1', which stands under at too, $own" '[concentrator]' 'listen = "127.0.0.1:1"' 'listen2 = "127.0.0.1:2"' 'at = "a:1"' 'at2 = "A:1"' "$sub" "$one" "$sub" "$two"
refuses a-concentrator-at-a-substation "line 2: concentrator, at: '10.0.0.2:20000', which substation 1 has too, $own" '[concentrator]' 'at = "10.0.0.2:20000"' "$sub" "$one" "$sub" "$two"
refuses a-listening-concentrator-at-a-substation "line 2: concentrator, at: '10.0.0.2:20000', which substation 1 has too, $own" '[concentrator]' 'listen = "10.0.0.2:20000"' "$sub" "$one" "$sub" "$two"
refuses a-usual-concentrator-at-a-substation "concentrator, at: '127.0.0.1:20100', which substation 0 has too, $own" "$sub" 'at = "127.0.0.1:20100"' "$sub" "$two"
refuses a-second-centre-at-a-substation "line 2: concentrator, at2: '10.0.0.1:20000', which substation 0 has too, $own" '[concentrator]' 'listen2 = "10.0.0.1:20000"' "$sub" "$one" "$sub" "$two"
refuses the-first-of-two-faults "line 1: name: a whole number, where a string with a character or more belongs" 'name = 1' '[concentrator]' 'listen = 1'
refuses a-fault-in-an-inline-table "line 1: concentrator, listen: 'x' without a port behind the host, $ends" 'concentrator = { listen = "x" }' "$sub" "$one" "$sub" "$two"
printf 'name = "\xff"\n' >n.toml
expect refuses-a-network-that-is-no-text 1 '' '' check --plan plan.toml --network n.toml
says says-why:a-network-that-is-no-text 'dnp: n.toml: not UTF-8, where a text belongs'

# blames NAME REASON RECORDS..: the points are refused, and standard error says why
blames() {
    local name=$1 reason=$2
    shift 2
    network 'points = "points.csv"' "$sub" "$one" "$sub" "$two"
    points "$@"
    expect "blames-$name" 1 '' '' check --plan plan.toml --network n.toml
    says "says-why:$name" "dnp: points.csv: $reason"
}
blames a-record-too-short 'line 2: a record of 7 fields, where 8 belong' '0,binary,0,A,,,'
blames a-record-too-long 'line 3: a record of 9 fields, where 8 belong' '0,binary,0,A,,,,' '0,binary,1,B,,,,,'
blames a-substation-by-name "line 2: substation: 'A', where the number of a substation belongs" 'A,binary,0,A,,,,'
blames no-substation "line 2: substation: '', where the number of a substation belongs" ',binary,0,A,,,,'
blames a-substation-that-the-plan-lacks 'line 2: substation: 2, where the plan has 2, counted from 0' '2,binary,0,A,,,,'
blames another-kind "line 2: kind: 'Binary', where binary, counter, analog, output or setpoint belongs" '0,Binary,0,A,,,,'
blames a-negative-index "line 2: index: '-1', where an index from 0 to 65535 belongs" '0,binary,-1,A,,,,'
blames index-65536 "line 2: index: '65536', where an index from 0 to 65535 belongs" '0,binary,65536,A,,,,'
blames a-point-that-the-plan-lacks 'line 3: index: binary 1 of substation 1, which has 1 of that kind, counted from 0' '1,binary,0,A,,,,' '1,binary,1,B,,,,'
blames an-index-above 'line 2: index: binary 100 of substation 0, which has 2 of that kind, counted from 0' '0,binary,100,A,,,,'
blames no-name 'line 2: name is empty, where the name of the point belongs' '0,binary,0,,,,,'
for scale in x 1. .5 1.2.3 -- 1234567890123 +1 1e3; do
    blames "scale:$scale" "line 2: scale: '$scale', where a decimal of at most 12 digits belongs, or nothing" "0,analog,0,A,,$scale,,"
done
blames states-of-an-analog 'line 2: zero, one: words for two states, which binaries and outputs alone have' '0,analog,0,A,,,off,on'
blames a-point-twice 'line 4: the same point as in line 2' '0,binary,0,A,,,,' '0,binary,1,B,,,,' '0,binary,0,C,,,,'
printf 'substation,kind,index,name,unit,scale,zero,one\n\n0,binary,0,"A\nB",,,,\n\n0,counter,9,C,,,,\n' >points.csv
expect blames-a-record-behind-empty-lines 1 '' '' check --plan plan.toml --network n.toml
says says-why:a-record-behind-empty-lines 'dnp: points.csv: line 6: index: counter 9 of substation 0, which has 1 of that kind, counted from 0'
printf 'substation,kind,index,name\r\n' >points.csv
expect blames-another-head 1 '' '' check --plan plan.toml --network n.toml
says says-why:another-head 'dnp: points.csv: line 1: another head than substation,kind,index,name,unit,scale,zero,one'
: >points.csv
expect blames-an-empty-file 1 '' '' check --plan plan.toml --network n.toml
printf '\xff' >points.csv
expect blames-points-that-are-no-text 1 '' '' check --plan plan.toml --network n.toml
says says-why:points-that-are-no-text 'dnp: points.csv: not UTF-8, where a text belongs'

# Files, words and a plan that is refused
rm points.csv
expect has-no-points 3 '' '' check --plan plan.toml --network n.toml
says tells-that-it-has-no-points 'dnp: points.csv: No such file or directory (os error 2)'
expect has-no-network 3 '' '' check --plan plan.toml --network none.toml
says tells-that-it-has-no-network 'dnp: none.toml: No such file or directory (os error 2)'
expect has-no-plan 3 '' '' check --plan none.toml
sed -i 's/retries = 0/retries = 4/' plan.toml
expect refuses-a-plan 1 'refused plan 3' '' check --plan plan.toml --network none.toml
says says-why-a-plan-is-refused 'dnp: plan.toml: retries: 4, where a whole number from 0 to 3 belongs'
expect takes-no-words 2 '' '' check
expect takes-no-two-forms 2 '' '' check --plan plan.toml --csv --json

# A file that is given for another one is named
tip="tip: it looks like a"
ln -s "$top/examples" given
expect refuses-a-network-for-a-plan 1 'refused plan 2' '' check --plan given/network.toml
says says-that-it-is-a-network "dnp: given/network.toml: confirm_ms is missing
dnp: given/network.toml: $tip network file, which '--network <FILE>' names"
expect refuses-a-plan-for-a-network 1 '' '' check --plan given/plan.toml --network given/plan.toml
says says-that-it-is-a-plan "dnp: given/plan.toml: line 8: substation 0, at is missing, where a host and port belong, as 10.0.0.1:20000, [2001:db8::1]:20000 or name:20000
dnp: given/plan.toml: $tip plan, which '--plan <FILE>' names"
expect refuses-points-for-a-network 1 '' '' check --plan given/plan.toml --network given/points.csv
says says-that-they-are-points "dnp: given/points.csv: line 1, column 11: the network is no TOML: key with no value, expected \`=\`
dnp: given/points.csv: $tip table of points, which 'points' of a network file names"
expect refuses-a-script-for-a-plan 1 'refused plan 1' '' sim --plan given/a_lost_confirm.script
says says-that-it-is-a-script "dnp: given/a_lost_confirm.script: line 1, column 6: the plan is no TOML: key with no value, expected \`=\`
dnp: given/a_lost_confirm.script: $tip script, which 'dnp sim' reads from standard input"
rm given

# The commands of docs/network.md
awk -v room="$room" '
    /^```/ { inside = !inside; if (inside) { file = ""; first = 1 } else if (file) close(file); next }
    inside && first { first = 0; if (/^\$ /) { file = room "/network-" (++n) ".block"; sub(/^\$ /, "") } }
    inside && file { print > file }' "$top/docs/network.md"
# (in a folder with the examples, and with a journal of one event)
mkdir document && ln -s "$top/examples" document/examples
sqlite3 document/journal.db ".read $top/tests/files/journal.sql" 'DELETE FROM journal; INSERT INTO journal VALUES (7, 0, 100, 1, 1, 1795575601000)'
for block in "$room"/network-*.block; do
    name=$(basename "$block" .block)
    command=$(head -n 1 "$block")
    tail -n +2 "$block" >want
    (cd document && PATH=$top:$PATH bash -c "$command") </dev/null 2>err | tr -d '\r' >out
    cmp -s want out && echo "ok $name: $command" || { echo "FAILED $name: $command" && diff want out; }
done
[ -e "$room/network-2.block" ] && echo ok network-has-commands || echo FAILED network-has-commands
