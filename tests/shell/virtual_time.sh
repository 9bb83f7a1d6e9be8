#!/bin/bash
# `dnp sim --hours` from the shell: networks in virtual time. None of these has a violation, and the same words print the same.
# tests/plants/run plants bugs that have to be seen, and dnp_log_tests nodes that are lied about.
. "$(dirname "${BASH_SOURCE[0]}")/../expect.bash"

plan=$PWD/four.toml
faults=cut=30,half=30,freeze=20,refuse=20,kill=60,clock=10,delay=20
no_faults=cut=0,half=0,freeze=0,refuse=0,kill=0,clock=0,delay=0

# A plan of four substations, with unsolicited responses.
{
    printf '%s\n' 'confirm_ms = 5000' 'response_ms = 10000' 'select_ms = 5000' 'retries = 0' 'unsolicited = true'
    printf '%s = [400, 400, 400, 400, 400, 400, 400, 400, 400]\n' queue queue2
    for base in 100 200 300 400; do
        printf '%s\n' '[[substation]]' 'lanes = [100, 100, 100, 100, 100, 100, 100, 100, 100]' 'binary = [1, 2, 3, 1, 2, 3, 1, 2]' \
            'counter = [3, 3]' 'analog = [2, 2, 2, 2]' 'deadband = [10, 10, 10, 10]' 'outputs = 2' 'setpoints = 1' \
            "base = [$base, $base, $base, $base, $base]"
    done
} >"$plan"

# runs NAME ARGS..: a network without a violation, whose output stays in the file `out`.
runs() {
    local name=$1 got=0
    "$dnp" sim --plan "$plan" "${@:2}" </dev/null >out 2>err || got=$?
    if [ "$got" = 0 ] && grep -qx 'violations: 0' out; then
        echo "ok $name"
    else
        echo "FAILED $name"
        printf '    status %s: %s %s\n' "$got" "$(grep violation out | head -c 500)" "$(head -c 500 err)"
    fi
}

# many NAME FROM TO ARGS..: networks of these seeds, none of which has a violation.
many() {
    local name=$1 seed wrong=''
    for seed in $(seq "$2" "$3"); do
        "$dnp" sim --plan "$plan" --seed "$seed" "${@:4}" </dev/null >out 2>err && grep -qx 'violations: 0' out || wrong+=" $seed"
    done
    if [ -z "$wrong" ]; then
        echo "ok $name"
    else
        printf 'FAILED %s\n    seeds with a violation:%s\n' "$name" "$wrong"
    fi
}

# has NAME PATTERN: the last output has such a line.
has() {
    grep -qx -- "$2" out && echo "ok $1" && return
    echo "FAILED $1"
    printf '    expected %s\n' "$2"
}

for seed in 1 2 3 4 5 6 7 8 9 10; do
    runs "seed-$seed" --plain --hours 0.25 --seed "$seed" --rate 0.05 --faults "$faults"
done
cp out first
runs the-same-words --plain --hours 0.25 --seed 10 --rate 0.05 --faults "$faults" --picture picture.svg
if cmp -s first out; then echo "ok the-same-words-print-the-same"; else echo "FAILED the-same-words-print-the-same"; fi
python3 -c 'import sys, xml.dom.minidom; sys.exit(len(xml.dom.minidom.parse("picture.svg").getElementsByTagName("path")) != 4)' &&
    echo "ok a-picture-is-drawn" || echo "FAILED a-picture-is-drawn"
# An event that a substation kept over a restart is sent again after its present value.
polled=$PWD/polled.toml
sed 's/^unsolicited = true$/unsolicited = false/' "$plan" >"$polled"
plan=$polled runs kept-events-come-last --plain --hours 0.278 --seed 877 --rate 0.05 --faults "$faults"
# (the proved program takes a second for each hundred)
if [ -z "$quick" ]; then
    many seeds-11-to-200 11 200 --plain --hours 0.278 --rate 0.05 --faults "$faults"
    plan=$polled many polled-seeds-1-to-50 1 50 --plain --hours 0.278 --rate 0.05 --faults "$faults"
fi
# (a program that checks its accesses takes a minute for each network over disks)
runs disks-11 --hours 0.1 --seed 11 --rate 0.1 --faults "$faults,stop=90,full=90"
has a-disk-stopped 'fault_stop: [1-9][0-9]*'
has a-disk-was-full 'fault_full: [1-9][0-9]*'
has a-process-ended-with-its-store 'stores_failed: [1-9][0-9]*'
if [ -z "$quick" ]; then
    cp out first
    runs the-same-words-over-disks --hours 0.1 --seed 11 --rate 0.1 --faults "$faults,stop=90,full=90"
    if cmp -s first out; then echo "ok the-same-words-print-the-same-over-disks"; else echo "FAILED the-same-words-print-the-same-over-disks"; fi
fi
runs without-faults --plain --hours 0.1 --faults "$no_faults"
has none-is-cut 'fault_cut: 0'
has none-is-killed 'fault_kill: 0'
has nothing-is-late 'closed_late: 0'
has one-restart-of-each-station-is-cleared-by-each-master 'asked_clear_restart: 6'
runs lists-are-on-no-disk --plain --hours 0.1 --rate 0.05
has no-disk-of-lists-stops 'fault_stop: 0'
has no-disk-of-lists-is-full 'fault_full: 0'
"$dnp" sim --plan "$plan" --plain --hours 0.1 --seed 3 --json </dev/null >out 2>err
python3 -c 'import json, sys; got = json.load(open("out")); sys.exit(got["seed"] != 3 or got["violations"] != 0 or got["seen"] != [])' &&
    echo "ok as-json" || echo "FAILED as-json"

# Links that are polled as a network file says: without unsolicited responses, with them, and seldom
network() { printf '%s\n' "$@" '[[substation]]' 'at = "a:1"' '[[substation]]' 'at = "b:1"' '[[substation]]' 'at = "c:1"' '[[substation]]' 'at = "d:1"' >n.toml; }
network '[centre]' 'events_ms = 1000' '[defaults]' 'events_ms = 500' 'integrity_ms = 600000' 'keepalive_ms = 10000' 'time = 60000'
runs polled-often --plain --hours 0.25 --seed 1 --rate 0.05 --faults "$faults" --network n.toml
has none-is-enabled 'asked_enable: 0'
network '[centre]' 'unsolicited = "123"' '[defaults]' 'unsolicited = "321"' 'time = "never"'
runs by-unsolicited-responses --plain --hours 0.25 --seed 1 --rate 0.05 --faults "$faults" --network n.toml
network '[defaults]' 'events_ms = 60000' 'keepalive_ms = 60000' 'events = "13"'
runs polled-seldom --plain --hours 0.25 --seed 1 --rate 0.05 --faults "$faults" --network n.toml
network '[defaults]' 'response_ms = 10001'
expect a-network-that-is-refused 1 '' '' sim --plan "$plan" --hours 0.1 --network n.toml
says a-network-that-is-refused-is-said "dnp: n.toml: line 2: defaults, response_ms: 10001, where a whole number of milliseconds from 1 to 10000, the plan's response_ms, belongs"
expect a-network-without-hours 2 '' '' sim --plan "$plan" --network n.toml
expect a-seed-without-hours 2 '' '' sim --plan "$plan" --seed 1
expect hours-that-are-no-number 2 '' '' sim --plan "$plan" --hours long
says hours-that-are-no-number-are-said "error: invalid value 'long' for '--hours <N>': not a decimal number in its range with at most 3 digits behind the point

For more information, try '--help'."
expect a-fault-that-there-is-not 2 '' '' sim --plan "$plan" --hours 1 --faults fire=1
for kind in stop full; do
    expect "lists-with-$kind" 2 '' '' sim --plan "$plan" --hours 1 --plain --faults "cut=2,$kind=0"
done
says a-disk-of-lists-is-said "error: '--faults' can't have stop or full with '--plain', since lists are on no disk

For more information, try '--help'."
expect a-rate-of-0 2 '' '' sim --plan "$plan" --hours 1 --rate 0
for words in '--limit 9' '--trace t' '--chart c.svg' '--capture c.pcap'; do
    # shellcheck disable=SC2086 # an option and its value
    expect "hours-with-${words%% *}" 2 '' '' sim --plan "$plan" --hours 0.1 $words
done
expect a-picture-that-cannot-be-written 3 '' '' sim --plan "$plan" --plain --hours 0.1 --picture no/such/folder.svg
