#!/bin/bash
# `dnp outstation` for good: the newest master is served, one from which nothing whole comes is hung up, changes are replayed again
# and again, and the log says what happens. With a master that is not this program: master.py.
. "$(dirname "${BASH_SOURCE[0]}")/../expect.bash"
. "$top/tests/outstation.bash"

plan plan.toml
# Who connects takes the place of the one that is served, and that one is hung up; with the last of the connections nobody is, and
# who comes then is hung up itself
serve --connections 2
talks serves-the-newest-master <<'LINES'
> C0 17
< C0 81 80 00 34 02 07 01 00 00
another
> C0 17
< C0 81 80 00 34 02 07 01 00 00
other
gone 0 2
other
> C1 17
< C1 81 80 00 34 02 07 01 00 00
another
other
> C2 17
< C2 81 80 00 34 02 07 01 00 00
nothing
other
end
other
LINES
ended counts-both-masters $'served 1\nserved 3'
tells says-who-took-over 'TIME PEER connected' 'TIME PEER ended, served 1: taken over by PEER' 'TIME PEER connected' \
    'TIME PEER came too late and is hung up: the program ends after the connection that it serves; '\''--forever'\'' serves more' \
    'TIME PEER ended, served 3: the master closed the connection'
tail -n 1 err | sed -E "s/^$utc //" >out
judge says-that-it-ends 0 "2 connections are over, and so the program ends: '--forever' serves more" 0
# Also in the midst of a frame, and where the one that is served reads nothing
serve --connections 2
talks is-taken-over-within-a-frame <<'LINES'
cut 9 C0 17
another
other
gone 0 2
LINES
ended counts-those-within-a-frame $'served 0\nserved 0'
plan plan.toml binary="[$(printf '0, %.0s' {1..1000})0]"
serve --connections 2
python3 "$master" "$port" <<<deaf >deaf 2>&1 &
deafens=$!
sleep 1.5
talks takes-the-place-of-the-deaf <<'LINES'
> C0 17
< C0 81 80 00 34 02 07 01 00 00
LINES
got=0
wait "$deafens" || got=$?
mv deaf out
judge hangs-up-the-deaf-for-another 0 '' "$got"
wait "$served"

# A master that is silent, one that drips octets, one that speaks to another station, and one that doesn't read are hung up in time
serve --connections 4 --idle 2 --verbose
talks hangs-up-the-silent <<'LINES'
gone 1.8 3.7
LINES
talks hangs-up-who-drips <<'LINES'
drip 1.8 3.7
LINES
talks hangs-up-who-speaks-to-another <<LINES
noise $(frame C9 0B 02)
wait 1
noise $(frame C9 0B 02)
gone 0.8 2.7
LINES
talks hangs-up-who-does-not-read <<<deaf
wait "$served"
sed -i '/ and so the program ends: /d' err
# (two seconds after its last whole frame, and not twice that: not before two seconds after it connected, and by the line of the
# last request, which is written once the answer before it is sent)
{ grep ' connected$' err | tail -n 1 && tail -n 2 err; } | cut -d ' ' -f 1 | xargs -I '{}' date -d '{}' +%s%3N | tr '\n' ' ' >times
read -r connected asked ended <times
echo "$((ended - connected >= 1900 && ended - asked < 3700))" >out
judge hangs-up-who-does-not-read-in-time 0 1 0
grep -v request err >rest
mv rest err
line='TIME PEER ended, served 0: idle, nothing whole came for 2 seconds'
tells says-who-was-idle 'TIME PEER connected' "$line" 'TIME PEER connected' 'TIME PEER octets came, and no frame' "$line" \
    'TIME PEER connected' 'TIME PEER frames came from 2 to 11; this takes those from 2 to 10' "$line" 'TIME PEER connected' \
    "$(sed -E 's/.*served ([0-9]+):.*/\1/' <<<"$(tail -n 1 err)" | sed 's/.*/TIME PEER ended, served &: idle, nothing whole came for 2 seconds/')"
# Whole frames keep it, also those without a request
plan plan.toml
serve --idle 1 --verbose
talks keeps-who-sends-frames <<'LINES'
wait 0.7
link C9 0B
wait 0.7
link C9 0B
wait 0.7
> C0 17
< C0 81 80 00 34 02 07 01 00 00
> C1 00
> C1 7F
< C1 81 80 01
LINES
ended counts-no-frames 'served 3'
tells says-each-fragment 'TIME PEER connected' 'TIME PEER request seq 0 fir fin DELAY_MEASURE, answered with 10 octets' \
    'TIME PEER request seq 1 fir fin CONFIRM, not answered' 'TIME PEER a fragment of 2 octets in error, answered with 4 octets' \
    'TIME PEER ended, served 3: the master closed the connection'

# It serves without an end, and changes are made again and again: the two of each round, the last two of which the lane holds
printf '300 change binary 0 1 01 1000\n300 change binary 0 0 01 2000\n' >day.txt
plan plan.toml binary='[1]'
serve --forever --replay day.txt --repeat
for which in first second third; do
    talks "changes-again:$which" <<'LINES'
wait 1
> C0 01 3C 02 06
< E0 81 80 08 02 02 28 02 00 00 00 81 E8 03 00 00 00 00 00 00 01 D0 07 00 00 00 00
wait 1
> C0 00
> C1 01 3C 02 06
< E1 81 80 08 02 02 28 02 00 00 00 81 E8 03 00 00 00 00 00 00 01 D0 07 00 00 00 00
LINES
done
kill "$served"
wait "$served"
judge serves-without-an-end 0 $'served 3\nserved 3\nserved 3' 0
# One without a line has nothing to begin again with
: >day.txt
serve --replay day.txt --repeat
talks repeats-no-change <<'LINES'
> C0 01 3C 02 06
< C0 81 80 00
LINES
ended counts-without-changes 'served 1'
# A replay that begins again does so after some time
printf '0 change binary 0 1 01 1000\n0 change binary 0 0 01 2000\n' >day.txt
rules="--plan plan.toml --station 0 --port $port"
expect takes-no-replay-of-no-length 1 'refused line 2' '' outstation $rules --replay day.txt --repeat
says says-that-it-has-no-length "dnp: day.txt: line 2: word 1: with '--repeat' the last change has to be due after 0 ms"
for words in '--idle 0' '--idle 86401' '--idle x' '--forever --connections 2' '--repeat'; do
    expect "takes-no-words:$words" 2 '' '' outstation $rules $words
done
