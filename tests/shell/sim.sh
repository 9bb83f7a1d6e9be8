#!/bin/bash
# `dnp sim` from the shell: scripts on whole systems. The reports of examples/ were worked out by hand.
. "$(dirname "${BASH_SOURCE[0]}")/../expect.bash"

lf=$'\n'
examples=$top/examples
plan=$examples/plan.toml

# The scripts of examples/, each on the plan of its name, or else on plan.toml
for script in "$examples"/*.script; do
    name=${script##*/} && name=${name%.script}
    of=$examples/$name.toml
    [ -e "$of" ] || of=$plan
    got=0
    "$dnp" sim --plan "$of" <"$script" >out 2>err || got=$?
    judge "reports:$name" 0 "$(<"$examples/$name.report")" "$got"
    got=0
    "$dnp" sim --plain --plan "$of" <"$script" >out 2>err || got=$?
    judge "reports-over-lists:$name" 0 "$(<"$examples/$name.report")" "$got"
done

# A report in which nothing happened, behind these lines
# nothing [LINE..]
nothing() {
    [ $# = 0 ] || printf '%s\n' "$@"
    printf '%s 0\n' journal journal2 queue queue2 dropped dropped2 confirmed buffered overwritten gone issued operated lost lost2
}
# reports NAME INPUT [LINE..]: the script does nothing that a report shows, and prints these lines
reports() {
    expect "$1" 0 "$(nothing "${@:3}")" "$2" sim --plan "$plan"
}
reports no-line ''
reports a-last-line-with-no-line-feed "open 0${lf}open above"
reports a-round-on-a-closed-link "round 0$lf" 'round 0 refused 1'
reports a-round-above-on-a-closed-link "round above$lf" 'round above refused 1'
reports a-control-on-closed-links "control 1$lf" 'control 1 refused 1'
reports a-control-that-there-is-not "open 0${lf}open above${lf}control 18446744073709551615$lf" 'control 18446744073709551615 refused 2'
reports rounds-that-move-nothing "open 0${lf}open above${lf}round 0${lf}round above${lf}round 0$lf" 'round 0 ok' 'round above ok' 'round 0 ok'
reports zeros-before-a-number "open 00${lf}round 000$lf" 'round 0 ok'
reports a-point-that-the-plan-lacks "change 0 binary 1 1 01 -${lf}change 0 counter 0 1 01 -${lf}issue 0 block 1 3 1 0 0$lf"
reports lines-that-do-nothing "deliver 0 up${lf}lose 0 down${lf}repeat above up${lf}damage 0 down 00${lf}flush 0 up${lf}relay 0$lf"

# What comes of a script on a plan that is changed so, worked out by hand
# shows NAME SED INPUT WANT
shows() {
    sed "$2" "$plan" >changed.toml
    expect "shows-$1" 0 "$4" "$3" sim --plan changed.toml
}
# listed JOURNAL QUEUE DROPPED CONFIRMED BUFFERED OVERWRITTEN GONE ISSUED OPERATED LOST: a report; each list has the
# items of its word, with a comma behind each. The second centre never polls, and its lanes take a hundred rows: all that
# came waits for it in the order in which it came, what was dropped for the first one before what that one has.
listed() {
    local list items item
    set -- "$1" '' "$2" "$3$1$2" "$3" '' "${@:4}"
    for list in journal journal2 queue queue2 dropped dropped2 confirmed buffered overwritten gone issued operated; do
        IFS=, read -r -a items <<<"$1"
        echo "$list ${#items[@]}"
        for item in "${items[@]+"${items[@]}"}"; do echo " $item"; done
        shift
    done
    echo "lost $1"
    echo 'lost2 0'
}
on1='0 binary 0 1 01 1000'
block='0 block 0 3 1 0 0'
both_open="open 0${lf}open above$lf"
changed="open 0${lf}change $on1$lf"
shows a-reading-that-a-new-point-has '' "change 0 binary 0 0 02 1000$lf" "$(nothing)"
shows the-same-reading-after-a-restart '' "change $on1${lf}restart 0${lf}change $on1$lf" \
    "$(listed '' '' '' '' "$on1," '' "$on1," '' '' 0)"
shows a-change-of-flags-alone '' "change $on1${lf}change 0 binary 0 1 41 2000$lf" \
    "$(listed '' '' '' '' "$on1,0 binary 0 1 41 2000," '' '' '' '' 0)"
shows a-difference-equal-to-the-deadband 's/^analog = .*/analog = [2]/; s/^deadband = .*/deadband = [5]/' \
    "change 0 analog 0 0 01 1${lf}change 0 analog 0 5 01 2${lf}change 0 analog 0 6 01 3$lf" \
    "$(listed '' '' '' '' '0 analog 0 0 01 1,0 analog 0 6 01 3,' '' '' '' '' 0)"
shows a-point-of-class-0 's/^binary = .*/binary = [0]/' "${changed}round 0$lf" "$(nothing 'round 0 ok')"
shows five-events-into-a-lane-of-two 's/^queue = .100, /queue = [2, /' \
    "open 0$lf$(printf 'change 0 binary 0 %s 01 %s\n' 1 1 0 2 1 3 0 4 1 5)${lf}round 0$lf" \
    "round 0 ok$lf$(listed '' '0 binary 0 0 01 4,0 binary 0 1 01 5,' '0 binary 0 1 01 1,0 binary 0 0 01 2,0 binary 0 1 01 3,' \
        '0 binary 0 1 01 1,0 binary 0 0 01 2,0 binary 0 1 01 3,0 binary 0 0 01 4,0 binary 0 1 01 5,' '' '' '' '' '' 3)"
shows a-poll-that-finds-the-master-busy '' "${changed}poll 0 123${lf}poll 0 123${lf}flush 0 down${lf}flush 0 up$lf" \
    "$(listed '' "$on1," '' '' "$on1," '' '' '' '' 0)"
shows a-confirm-after-its-time '' "${changed}poll 0 123${lf}flush 0 down${lf}flush 0 up${lf}pass 5000${lf}tick 0 outstation${lf}flush 0 down$lf" \
    "$(listed '' "$on1," '' '' "$on1," '' '' '' '' 0)"
shows a-confirm-in-time '' "${changed}poll 0 123${lf}flush 0 down${lf}flush 0 up${lf}pass 4999${lf}tick 0 outstation${lf}flush 0 down$lf" \
    "$(listed '' "$on1," '' "$on1," '' '' '' '' '' 0)"
# The request stays on the line and is answered again and again; so many of the answers are then lost.
# answers COUNT LOST
answers() {
    printf '%spoll 0 123\n' "$changed"
    yes 'repeat 0 down' | head -n "$1"
    yes 'lose 0 up' | head -n "$2"
    printf 'flush 0 up\nflush 0 down\n'
}
shows what-comes-after-31-losses '' "$(answers 34 31)$lf" "$(listed '' "$on1," '' "$on1," '' '' '' '' '' 0)"
shows what-a-line-drops-at-32-losses '' "$(answers 34 32)$lf" "$(listed '' '' '' '' "$on1," '' '' '' '' 0)"
shows an-unsolicited-response 's/^unsolicited = .*/unsolicited = true/' \
    "open 0${lf}flush 0 up${lf}flush 0 down${lf}enable 0 1${lf}flush 0 down${lf}flush 0 up${lf}change $on1${lf}flush 0 up${lf}flush 0 down$lf" \
    "$(listed '' "$on1," '' "$on1," '' '' '' '' '' 0)"
shows a-select-that-time-ends '' "${both_open}issue $block${lf}pass 18446744073709551615${lf}control 1$lf" \
    "control 1 refused 3$lf$(listed '' '' '' '' '' '' '' "$block," '' 0)"
shows a-setpoint 's/^setpoints = 0/setpoints = 1/' "${both_open}issue 0 set16 0 -5${lf}control 1$lf" \
    "control 1 ok$lf$(listed '' '' '' '' '' '' '' '0 set16 0 -5,' '0 set16 0 -5,' 0)"
shows a-control-behind-another '' "${both_open}issue $block${lf}issue $block${lf}control 2${lf}control 1${lf}control 2$lf" \
    "control 2 refused 2${lf}control 1 ok${lf}control 2 ok$lf$(listed '' '' '' '' '' '' '' "$block,$block," "$block,$block," 0)"
shows a-control-again '' "${both_open}issue $block${lf}control 1${lf}control 1$lf" \
    "control 1 ok${lf}control 1 refused 2$lf$(listed '' '' '' '' '' '' '' "$block," "$block," 0)"

# What is refused of a script: nothing else is printed, whatever stands before it and behind it. Standard error says which
# word of the line stops fitting, and what belongs there.
# refuses NAME LINE INPUT WHY
refuses() {
    expect "refuses-$1" 1 "refused line $2" "$3" sim --plan "$plan"
    says "says-where-it-refuses-$1" "dnp: line $2$4"
}
fits="open 0$lf"
a_link='where above, above2 or a substation'"'"'s number, 0 to 0, belongs'
classes='where a word of the digits 0 to 3, each once at most, belongs'
number='where a whole number from 0 to 18446744073709551615 belongs'
octets='where a word of two hexadecimal digits for each of 1 to 292 octets belongs'
verbs='where open, clear, relay, round, hangup, tick, deliver, repeat, lose, flush, damage, poll, enable, disable, time, pass, control, control2, restart, change, issue or issue2 belongs'
refuses the-third-line 3 "${fits}round 0${lf}poll 0$lf$fits" ", word 3: the line ends, $classes"
refuses the-last-line-with-no-line-feed 2 "${fits}open" ", word 2: the line ends, $a_link"
refuses a-blank-line 1 "$lf$fits" ': an empty line, where an event belongs'
refuses two-line-feeds-at-the-end 2 "$fits$lf" ': an empty line, where an event belongs'
refuses a-carriage-return 1 "open 0"$'\r'"$lf" ': a carriage return at its end, where the line feed alone belongs'
refuses two-spaces 2 "${fits}open  0$lf" ", word 2: an empty word, $a_link"
refuses a-space-at-the-end 2 "${fits}open 0 $lf" ', word 3: an empty word, where the end of the line belongs'
refuses a-tab 1 "open"$'\t'"0$lf" ", word 1: 'open\\t0', $verbs"
refuses another-word 1 "opne 0$lf" ", word 1: 'opne', $verbs"
refuses a-word-more 1 "open 0 up$lf" ", word 3: 'up', where the end of the line belongs"
refuses a-ninth-word 1 "issue 0 block 0 3 1 0 0 9$lf" ", word 9: '9', where the end of the line belongs"
refuses another-kind 1 "change 0 bnary 0 1 01 -$lf" ", word 3: 'bnary', where binary, counter or analog belongs"
refuses another-command 1 "issue 0 sett 0 1$lf" ", word 3: 'sett', where set16, set32 or block belongs"
refuses a-value-too-large-for-set16 1 "issue 0 set16 0 32768$lf" ", word 5: '32768', where a whole number from -32768 to 32767 belongs"
refuses flags-of-one-digit 1 "change 0 binary 0 1 1 -$lf" ", word 6: '1', where a word of two hexadecimal digits belongs"
refuses no-time 1 "change 0 binary 0 1 01 now$lf" ", word 7: 'now', where a time in milliseconds or - belongs"
refuses another-end 1 "tick 0 up$lf" ", word 3: 'up', where master or outstation belongs"
refuses another-way 1 "deliver 0 master$lf" ", word 3: 'master', where down or up belongs"
refuses a-plus-sign 1 "pass +1$lf" ", word 2: '+1', $number"
refuses a-link-that-the-plan-lacks 2 "${fits}open 1$lf" ", word 2: '1', $a_link"
refuses a-substation-that-the-plan-lacks 1 "restart 1$lf" ", word 2: '1', where centre, centre2, concentrator or a substation's number, 0 to 0, belongs"
refuses a-third-centre 1 "restart centre3$lf" ", word 2: 'centre3', where centre, centre2, concentrator or a substation's number, 0 to 0, belongs"
refuses a-link-to-a-third-centre 1 "open above3$lf" ", word 2: 'above3', $a_link"
refuses a-control-of-a-third-centre 1 "control3 1$lf" ", word 1: 'control3', $verbs"
refuses another-command-of-the-second-centre 1 "issue2 0 sett 0 1$lf" ", word 3: 'sett', where set16, set32 or block belongs"
refuses a-class-named-twice 1 "poll 0 11$lf" ", word 3: '11', $classes"
refuses no-class 1 "poll 0 4$lf" ", word 3: '4', $classes"
refuses damage-of-no-octet 1 "damage 0 down $lf" ", word 4: an empty word, $octets"
refuses half-an-octet-of-damage 1 "damage 0 down 123$lf" ", word 4: '123', $octets"
refuses a-number-of-65-bits 1 "pass 18446744073709551616$lf" ", word 2: '18446744073709551616', $number"
refuses what-is-not-UTF-8 2 "$fits"$'\xff'"$lf${fits}open$lf" ", word 1: what is not UTF-8, $verbs"
refuses what-is-not-UTF-8-in-a-line 1 "open 0"$'\xc3'"$lf" ", word 2: what is not UTF-8, $a_link"
refuses what-does-not-fit-before-what-is-not-UTF-8 2 "${fits}open$lf"$'\xff'"$lf" ", word 2: the line ends, $a_link"

# How much of a script is read
limited() {
    expect "$1" "$2" "$3" "$fits" sim --plan "$plan" --limit "$4"
}
limited reads-a-script-of-its-limit 0 "$(nothing)" 7
limited refuses-a-script-over-its-limit 3 '' 6
says says-over-which-limit "dnp: standard input: over the 6 octets that '--limit' allows"
limited wants-a-limit 2 '' 0
says says-what-a-limit-is "error: invalid value '0' for '--limit <OCTETS>': not a decimal number from 1 to 1099511627776

For more information, try '--help'."
# (over the checked program a limit that is given)
limit=67108864 size=64-MB given=()
[ -z "$quick" ] || limit=1048576 size=1-MB given=(--limit "$limit")
got=0 && head -c $((limit + 1)) /dev/zero | "$dnp" sim --plan "$plan" "${given[@]}" >out 2>err || got=$?
judge "refuses-a-script-over-$size" 3 '' "$got"
says "says-that-it-is-over-$size" "dnp: standard input: over the $limit octets that '--limit' allows"

# takes_under NAME OCTETS: at no moment has the run of the script 'script' more memory
takes_under() {
    python3 - "$dnp" "$plan" "$2" >out <<'P'
import resource, subprocess, sys
subprocess.run([sys.argv[1], "sim", "--plan", sys.argv[2]], stdin=open("script"), stdout=subprocess.DEVNULL, stderr=subprocess.DEVNULL)
print(resource.getrusage(resource.RUSAGE_CHILDREN).ru_maxrss * 1024 < int(sys.argv[3]))
P
    judge "$1" 0 True 0
}

if [ -z "$quick" ]; then
    # The text is held once: 60,000,000 octets of it take less than half as much again
    head -c 60000000 /dev/zero | tr '\0' x >script
    takes_under holds-a-script-once 90000000

    # No list of its lines is held: a million changes, a text of 30,000,000 octets, leave two lists of a million rows
    seq 1 1000000 | awk '{ print "change 0 binary 0 " $1 % 2 " 01 " $1 }' >script
    takes_under holds-no-list-of-lines 126000000
else
    left_out holds-a-script-once holds-no-list-of-lines
fi

# A reader that goes away is no fault that is told of
seq 1 20000 | awk '{ print "change 0 binary 0 " $1 % 2 " 01 " $1 }' >script
got=0 && { "$dnp" sim --plan "$plan" <script 2>err || echo $? >status; } | head -n 1 >out
judge ends-with-its-reader 3 'journal 0' "$(<status)"
says ends-quietly ''

# What is refused of a plan, whatever the script says, and what standard error says of it. changed SED..: the plan, changed so
# refuses_plan NAME NUMBER REASON SED..
refuses_plan() {
    sed "${@:4}" "$plan" >changed.toml
    expect "refuses-a-plan-$1" 1 "refused plan $2" "poll$lf" sim --plan changed.toml
    says "says-why-it-refuses-a-plan-$1" "dnp: changed.toml: $3"
}
nine='1, 1, 1, 1, 1, 1, 1, 1, 1'
refuses_plan that-is-no-TOML 1 'line 1, column 13: the plan is no TOML: key with no value, expected `=`' '1s/=//'
# (a list may go on in the next line, and there the text ends)
refuses_plan that-is-no-TOML-at-its-end 1 'line 17, column 1: the plan is no TOML: missing comma between array elements, expected `,` or `]`' '$s/\]$//'
refuses_plan with-a-number-of-65-bits 1 'line 4, column 11: the plan is no TOML: number out of range' 's/^retries = 0/retries = 9223372036854775808/'
refuses_plan that-is-not-UTF-8 1 'line 1, column 21: the plan is no TOML: invalid UTF-8' '1s/$/ # \xff/'
refuses_plan with-a-key-twice 1 'line 5, column 1: the plan is no TOML: duplicate key' '4s/.*/&\n&/'
refuses_plan without-retries 2 'retries is missing' '/^retries/d'
refuses_plan with-another-key 2 "unknown key 'color'" '1s/^/color = 1\n/'
refuses_plan with-a-long-key 2 "unknown key '1234567890123456789012345678901234567890' and more" '1s/^/12345678901234567890123456789012345678901 = 1\n/'
refuses_plan with-retries-in-quotes 2 'retries: a string, where a whole number from 0 to 3 belongs' 's/^retries = 0/retries = "0"/'
refuses_plan with-half-a-millisecond 2 "select_ms: a number that isn't whole, where a whole number from 1 to 3600000 belongs" 's/^select_ms = .*/select_ms = 0.5/'
refuses_plan with-a-queue-of-one-lane 2 'queue: a list of 1, where a list of 9 whole numbers belongs' 's/^queue = .*/queue = [1]/'
refuses_plan without-a-second-queue 2 \
    'queue2 is missing: it has the same form as queue, for the second centre; to add it, write the line of queue once more, as queue2 = [..]' \
    '/^queue2/d'
refuses_plan with-a-second-queue-of-one-lane 2 'queue2: a list of 1, where a list of 9 whole numbers belongs' 's/^queue2 = .*/queue2 = [1]/'
refuses_plan without-substations 2 'substation is missing' '/^\[\[/,$d'
refuses_plan with-a-substation-that-is-no-table 2 'substation: item 1 is a whole number, where a table belongs' -e 's/^\[\[.*/substation = [3]/' -e '/^lanes/,$d'
refuses_plan with-lanes-of-half-a-row 2 "substation 0, lanes: item 2 is a number that isn't whole, where a whole number from 1 to 4096 belongs" 's/^lanes = .*/lanes = [1, 0.5]/'
refuses_plan with-a-deadband-too-many 2 'substation 0, deadband: a list of 1, where a list of one whole number for each item of analog belongs' 's/^deadband = .*/deadband = [1]/'
refuses_plan with-another-key-of-a-substation 2 "substation 0, unknown key 'colour'" '$s/$/\ncolour = 1/'
refuses_plan with-retries-of-4 3 'retries: 4, where a whole number from 0 to 3 belongs' 's/^retries = 0/retries = 4/'
refuses_plan with-a-lane-of-no-rows 3 'queue: item 9 is 0, where a whole number from 1 to 4096 belongs' "s/^queue = .*/queue = [${nine%1}0]/"
refuses_plan with-257-outputs 3 'substation 0, outputs: 257, where a whole number from 0 to 256 belongs' 's/^outputs = .*/outputs = 257/'
refuses_plan with-a-second-lane-of-no-rows 3 'queue2: item 9 is 0, where a whole number from 1 to 4096 belongs' "s/^queue2 = .*/queue2 = [${nine%1}0]/"
refuses_plan with-a-base-of-65536 3 'substation 0, base: item 5 is 65536, where a whole number from 0 to 65535 belongs' 's/, 0\]$/, 65536]/'
refuses_plan with-no-substation 3 'substation: a list of 0, where a list of 1 to 16 tables belongs' -e 's/^\[\[.*/substation = []/' -e '/^lanes/,$d'
refuses_plan with-a-class-of-4 4 'substation 0, binary: item 1 is 4, where a class from 0 to 3 belongs' 's/^binary = \[1\]/binary = [4]/'
refuses_plan with-an-index-above-over-65535 5 'substation 0, base: item 1 is 65535, so the last of its 2 binary inputs is 65536 above, where 65535 is the highest' \
    's/^binary = .*/binary = [1, 1]/; s/^base = \[100/base = [65535/'
sed -n '/^\[\[/,$p' "$plan" >substation.toml
refuses_plan whose-substations-share-an-index 6 'substation 0, base: by item 1 its binary inputs share an index above with those of substation 1' '$r substation.toml'
# (a third substation: the first of the two that are wrong is named)
sed 's/^counter = .*/counter = [0, 1, 5]/; s/^base = .*/base = [7, 8, 9, 10, 11]/' substation.toml >third.toml
cat substation.toml >>third.toml
refuses_plan with-a-class-of-5-in-its-second-substation 4 'substation 1, counter: item 3 is 5, where a class from 0 to 3 belongs' '$r third.toml'

# The command line and the files
expect wants-a-plan 2 '' '' sim
expect wants-a-file 2 '' '' sim --plan
expect wants-no-other-word 2 '' '' sim --plan "$plan" more
expect has-no-such-file 3 '' "$fits" sim --plan absent.toml
got=0 && "$dnp" sim --plan "$plan" </dev/null >/dev/full 2>err || got=$?
: >out
judge tells-that-the-output-is-lost 3 '' "$got"
expect tells-how-to-use-it 0 "$(<"$top/crates/dnp/help/sim")" '' sim --help

# Many lines: a point that goes on and off at each, into a lane of 100 rows, and no link that carries it away
count=1000000 name=a-million-changes
[ -z "$quick" ] || count=20000 name=20000-changes
seq 1 "$count" | awk '{ print "change 0 binary 0 " $1 % 2 " 01 " $1 }' >script
# rows FROM TO: what of them stands in the report
rows() {
    echo "$3 $(($2 - $1 + 1))"
    seq "$1" "$2" | awk '{ print " 0 binary 0 " $1 % 2 " 01 " $1 }'
}
{
    printf '%s 0\n' journal journal2 queue queue2 dropped dropped2 confirmed
    rows $((count - 99)) "$count" buffered
    rows 1 $((count - 100)) overwritten
    printf '%s 0\n' gone issued operated lost lost2
} >want
got=0 && "$dnp" sim --plan "$plan" <script >out 2>err || got=$?
if [ "$got" = 0 ] && cmp -s want out; then
    echo "ok runs-$name"
else
    echo "FAILED runs-$name, with exit status $got: $(head -c 500 err)"
fi
# The same in less memory than it takes: of these limits one lets the script begin, and not end
stopped() {
    local limit got told='' word lines
    for limit in 50000 60000 70000 80000 90000; do
        got=0 && (ulimit -v $limit && exec "$program" sim --plan "$plan") <script >out 2>err || got=$?
        read -r word lines <out || true
        [ "$got $word" = '3 stopped' ] && told="$(<err)" && break
    done
    if [ "$told" = "dnp: stopped after $lines lines of the script: out of memory" ]; then
        echo "ok says-why-a-script-stopped"
    else
        echo "FAILED says-why-a-script-stopped: $told"
    fi
}
if [ -z "$quick" ]; then stopped; else left_out says-why-a-script-stopped; fi
# Rounds, each of which is printed: fewer, since each is a poll with its response
count=99999 name=a-hundred-thousand-rounds
[ -z "$quick" ] || count=1999 name=two-thousand-rounds
{ echo 'open 0' && yes 'round 0' | head -n "$count"; } >script
{ yes 'round 0 ok' | head -n "$count" && nothing; } >want
got=0 && "$dnp" sim --plan "$plan" <script >out 2>err || got=$?
if [ "$got" = 0 ] && cmp -s want out; then
    echo "ok runs-$name"
else
    echo "FAILED runs-$name, with exit status $got: $(head -c 500 err)"
fi
