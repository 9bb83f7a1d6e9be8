#!/bin/bash
# The lines of a script that can do nothing: standard error tells of them behind the run, and the report is that of the script
# without them.
. "$(dirname "${BASH_SOURCE[0]}")/../expect.bash"

lf=$'\n'
# A substation with a binary input, a counter, an analog input, an output and a setpoint
sed 's/^counter = .*/counter = [2]/; s/^analog = .*/analog = [3]/; s/^deadband = .*/deadband = [0]/; s/^setpoints = .*/setpoints = 1/
     s/^base = .*/base = [100, 300, 400, 200, 500]/' "$top/examples/plan.toml" >plan.toml

# The same report comes with the line and without it, and standard error says why the line does nothing; nothing is said where
# no reason is given.
# idles NAME LINE [REASON]
idles() {
    printf 'open 0\nopen above\nchange 0 binary 0 1 01 1000\nround 0\nround above\n' >without
    sed "3a $2" without >with
    if [ -n "${3-}" ]; then
        "$dnp" sim --plan plan.toml <without >wanted 2>err || echo "FAILED $1-without-it"
    else
        "$dnp" sim --plan plan.toml <with >wanted 2>err || echo "FAILED $1-with-it"
    fi
    expect "$1" 0 "$(<wanted)" "$(<with)" sim --plan plan.toml
    says "$1-is-said" "${3:+dnp: 1 line did nothing: line 4: $3}"
}
idles a-point-that-the-plan-lacks 'change 0 binary 1 1 01 -' 'no such point'
idles a-point-far-above-the-plan 'change 0 counter 65535 1 01 -' 'no such point'
idles a-point-that-the-plan-has 'change 0 counter 0 1 01 -'
range="a value or flags out of the kind's range"
idles a-binary-of-2 'change 0 binary 0 2 01 -' "$range"
idles a-binary-below-0 'change 0 binary 0 -1 01 -' "$range"
idles a-binary-with-bit-7 'change 0 binary 0 1 81 -' "$range"
idles a-binary-with-all-other-bits 'change 0 binary 0 1 7F -'
idles a-counter-of-2-to-the-32 'change 0 counter 0 4294967296 01 -' "$range"
idles the-last-counter 'change 0 counter 0 4294967295 FF -'
idles a-counter-below-0 'change 0 counter 0 -1 01 -' "$range"
idles an-analog-above-its-range 'change 0 analog 0 2147483648 01 -' "$range"
idles an-analog-below-its-range 'change 0 analog 0 -2147483649 01 -' "$range"
idles the-first-analog 'change 0 analog 0 -2147483648 FF -'
time='a time of 2^48 ms or more'
idles a-reading-at-2-to-the-48 'change 0 binary 0 1 01 281474976710656' "$time"
idles a-reading-at-the-last-moment 'change 0 binary 0 0 01 281474976710655'
idles a-clock-set-to-2-to-the-48 'time 0 281474976710656' "$time"
idles a-clock-set-to-the-last-moment 'time 0 281474976710655'
idles an-output-that-the-plan-lacks 'issue 0 block 1 3 1 0 0' 'no such output'
idles an-output-that-the-plan-has 'issue 0 block 0 3 1 0 0'
idles a-setpoint-that-the-plan-lacks 'issue 0 set16 1 0' 'no such setpoint'
idles a-wide-setpoint-that-the-plan-lacks 'issue 0 set32 1 0' 'no such setpoint'
idles a-setpoint-that-the-plan-has 'issue 0 set32 0 0'
idles an-output-that-the-plan-lacks-for-the-second-centre 'issue2 0 block 1 3 1 0 0' 'no such output'
idles an-output-that-the-plan-has-for-the-second-centre 'issue2 0 block 0 3 1 0 0'
idles a-setpoint-that-the-plan-lacks-for-the-second-centre 'issue2 0 set16 1 0' 'no such setpoint'
idles class-0-enabled 'enable 0 0' 'class 0 has no events'
idles class-0-disabled-beside-others 'disable above 1230' 'class 0 has no events'
idles class-0-enabled-by-the-second-centre 'enable above2 0' 'class 0 has no events'
idles all-classes-of-events-enabled 'enable 0 123'
idles class-0-polled 'poll 0 0'
idles no-time 'pass 0' 'no time passes'
idles a-millisecond 'pass 1'
idles a-delivery-on-an-empty-line 'deliver 0 up'

# The first of several causes is said of a line, and the first of several lines
idles no-such-point-before-its-range 'change 0 binary 1 2 81 281474976710656' 'no such point'
idles the-range-of-a-value-before-that-of-a-time 'change 0 binary 0 2 01 281474976710656' "$range"
several="change 0 binary 0 1 01 1000${lf}pass 0${lf}deliver 0 up${lf}change 0 binary 7 1 01 -${lf}issue 0 block 9 3 1 0 0$lf"
expect counts-the-lines 0 "$(printf 'change 0 binary 0 1 01 1000\n' | "$dnp" sim --plan plan.toml)" "$several" sim --plan plan.toml
says says-which-is-the-first 'dnp: 3 lines did nothing; the first is line 2: no time passes'
json=$(printf 'change 0 binary 0 1 01 1000\n' | "$dnp" sim --plan plan.toml --json)
expect counts-the-lines-beside-json 0 "$json" "$several" sim --plan plan.toml --json
says says-it-beside-json 'dnp: 3 lines did nothing; the first is line 2: no time passes'
expect counts-the-lines-of-a-loop 0 "$("$dnp" loopback --plan plan.toml <<<'pass 1')" "pass 1${lf}pass 0" loopback --plan plan.toml
says says-it-of-a-loop 'dnp: 1 line did nothing: line 2: no time passes'

# Of a script that is refused nothing of the kind is said.
expect refuses-a-script 1 'refused line 2' "pass 0${lf}pass$lf" sim --plan plan.toml
says says-where-it-refuses-it 'dnp: line 2, word 2: the line ends, where a whole number from 0 to 18446744073709551615 belongs'
