#!/bin/bash
# `dnp loopback` from the shell: it prints what `dnp sim` prints, and refuses lines that lose, repeat or damage a unit.
. "$(dirname "${BASH_SOURCE[0]}")/../expect.bash"

lf=$'\n'
examples=$top/examples
plan=$examples/plan.toml

# The scripts of examples/, each on the plan of its name, or else on plan.toml; those that lose, repeat or damage a unit are
# refused at the first line that does
for script in "$examples"/*.script; do
    name=${script##*/} && name=${name%.script}
    of=$examples/$name.toml
    [ -e "$of" ] || of=$plan
    status=0 got=0
    "$dnp" sim --plan "$of" <"$script" >simulated 2>err || echo "FAILED to-simulate:$name"
    line=$(grep -nE '^(lose|repeat|damage) ' "$script" | head -n 1 | cut -d: -f1)
    [ -z "$line" ] || { status=1 && echo "refused line $line" >simulated; }
    "$dnp" loopback --plan "$of" <"$script" >out 2>err || got=$?
    judge "carries-or-refuses:$name" "$status" "$(<simulated)" "$got"
done

# refuses NAME LINE INPUT WORD WHAT
refuses() {
    expect "refuses-$1" 1 "refused line $2" "$3" loopback --plan "$plan"
    says "says-where-it-refuses-$1" "dnp: line $2, word $4: $5 belongs"
}
verbs='open, clear, relay, round, hangup, tick, deliver, flush, poll, enable, disable, time, pass, control, control2, restart, change, issue or issue2'
a_link="above, above2 or a substation's number, 0 to 0,"
fits="open 0$lf"
refuses a-loss 2 "${fits}lose 0 up$lf$fits" 1 "'lose', where $verbs"
refuses a-repeat 2 "${fits}repeat 0 up$lf" 1 "'repeat', where $verbs"
refuses damage 2 "${fits}damage 0 up 00$lf" 1 "'damage', where $verbs"
refuses a-loss-before-what-does-not-fit 2 "${fits}lose 0 up${lf}open$lf" 1 "'lose', where $verbs"
refuses what-does-not-fit-before-a-loss 2 "${fits}open${lf}lose 0 up$lf" 2 "the line ends, where $a_link"

sed 's/^retries = 0/retries = 4/' "$plan" >changed.toml
expect refuses-a-plan 1 'refused plan 3' "$fits" loopback --plan changed.toml
says says-why-it-refuses-a-plan 'dnp: changed.toml: retries: 4, where a whole number from 0 to 3 belongs'
expect refuses-a-script-over-its-limit 3 '' "$fits" loopback --plan "$plan" --limit 6
says says-over-which-limit "dnp: standard input: over the 6 octets that '--limit' allows"
expect wants-a-plan 2 '' '' loopback
expect has-no-such-file 3 '' "$fits" loopback --plan absent.toml
expect tells-how-to-use-it 0 "$(<"$top/crates/dnp/help/loopback")" '' loopback --help

# With room for the listener and one end alone
got=0
printf '%s' "$fits" | (ulimit -n 5 && exec "$program" loopback --plan "$plan") >out 2>err || got=$?
judge fails-with-no-connection 3 '' "$got"
says says-that-there-is-no-connection 'dnp: the connection to this program itself: Too many open files (os error 24)'
