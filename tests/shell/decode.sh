#!/bin/bash
# `dnp decode` from the shell. What is expected is worked by hand from IEEE Std 1815-2012.
. "$(dirname "${BASH_SOURCE[0]}")/../expect.bash"

lf=$'\n'
# decodes NAME STATUS LINES INPUT WORDS..: what `dnp decode` prints
decodes() {
    local name=$1 status=$2 lines=$3 input=$4
    shift 4
    expect "decodes-$name" "$status" "$lines" "$input" decode "$@"
}

# A READ of events and static data, from master 1 to outstation 10
asked='05 64 14 C4 0A 00 01 00 8F ED C0 C0 01 3C 02 06 3C 03 06 3C 04 06 3C 01 06 8A 51'
read_lines='1 1>10 C4 UNCONFIRMED_USER_DATA 15 octets, words good
1   transport FIR FIN 0
1   request seq 0 fir fin READ
1     60.2 all
1     60.3 all
1     60.4 all
1     60.1 all'
# read_at N: those lines for line or packet N
read_at() { sed "s/^1 /$1 /" <<<"$read_lines"; }
decodes a-request 0 "$read_lines" "$asked$lf"
decodes no-line-feed 0 "$read_lines" "$asked"
decodes lower-case-without-blanks 0 "$read_lines" "$(tr -d ' ' <<<"${asked,,}")$lf"
decodes carriage-returns 0 "$read_lines" "$asked"$'\r\n'
decodes nothing 0 '' ''
decodes empty-lines 0 '' "$lf$lf"
decodes a-frame-over-two-lines 0 "$(read_at 2)" "${asked:0:42}$lf${asked:42}$lf"

# A response with an event: 2.2, index 3, on, at 1,000 ms; and static values by a range
event=$(frame 44 02 0A C0 E1 81 00 00 02 02 17 01 03 81 E8 03 00 00 00 00)
decodes an-event 0 '1 10>2 44 UNCONFIRMED_USER_DATA 17 octets, words good
1   transport FIR FIN 0
1   response seq 1 fir fin con, iin 00 00
1     2.2 x1: 3 = 1 flags 01 ONLINE at 1970-01-01T00:00:01.000Z' "$event$lf"
# 30.1 of the indexes 5 and 6: flags 01, -1; flags 81, 65,536
decodes static-values 0 '1 10>2 44 UNCONFIRMED_USER_DATA 20 octets, words good
1   transport FIR FIN 5
1   response seq 2 fir fin, iin 80 04 DEVICE_RESTART PARAMETER_ERROR
1     30.1 5..6: 5 = -1 flags 01 ONLINE
1     30.1 5..6: 6 = 65536 flags 81 ONLINE reserved' "$(frame 44 02 0A C5 C2 81 80 04 1E 01 00 05 06 01 FF FF FF FF 81 00 00 01 00)$lf"
# 1.1, packed: of the indexes 0 to 2 the middle one is on
decodes packed-bits 0 '1 10>2 44 UNCONFIRMED_USER_DATA 11 octets, words good
1   transport FIR FIN 0
1   response seq 0 fir fin, iin 00 00
1     1.1 0..2: 0 = 0 flags 01 ONLINE
1     1.1 0..2: 1 = 1 flags 01 ONLINE
1     1.1 0..2: 2 = 0 flags 01 ONLINE' "$(frame 44 02 0A C0 C0 81 00 00 01 01 00 00 02 02)$lf"
# 10.2, the states of the outputs 3 and 4: on and off, both ONLINE
decodes states-of-outputs 0 '1 10>2 44 UNCONFIRMED_USER_DATA 12 octets, words good
1   transport FIR FIN 0
1   response seq 0 fir fin, iin 80 00 DEVICE_RESTART
1     10.2 3..4: 3 = 1 flags 01 ONLINE
1     10.2 3..4: 4 = 0 flags 01 ONLINE' "$(frame 44 02 0A C0 C0 81 80 00 0A 02 00 03 04 81 01)$lf"
# 40.1 and 40.2, the states of setpoints: -2 in 32 bits, 513 in 16
decodes states-of-setpoints 0 '1 10>2 44 UNCONFIRMED_USER_DATA 23 octets, words good
1   transport FIR FIN 0
1   response seq 0 fir fin, iin 80 00 DEVICE_RESTART
1     40.1 0..0: 0 = -2 flags 01 ONLINE
1     40.2 1..1: 1 = 513 flags 01 ONLINE' "$(frame 44 02 0A C0 C0 81 80 00 28 01 00 00 00 01 FE FF FF FF 28 02 00 01 01 01 01 02)$lf"
# 80.1, the indication DEVICE_RESTART, 7, is cleared
decodes an-indication 0 '1 2>10 C4 UNCONFIRMED_USER_DATA 9 octets, words good
1   transport FIR FIN 0
1   request seq 0 fir fin WRITE
1     80.1 7..7: 7 = 0' "$(frame C4 0A 02 C0 C0 02 50 01 00 07 07 00)$lf"
# 50.1, a time that is written, and 52.2, a delay
decodes a-time 0 '1 2>10 C4 UNCONFIRMED_USER_DATA 13 octets, words good
1   transport FIR FIN 0
1   request seq 0 fir fin WRITE
1     50.1 x1: 1970-01-01T00:00:01.000Z' "$(frame C4 0A 02 C0 C0 02 32 01 07 01 E8 03 00 00 00 00)$lf"
decodes a-delay 0 '1 10>2 44 UNCONFIRMED_USER_DATA 11 octets, words good
1   transport FIR FIN 0
1   response seq 0 fir fin, iin 00 00
1     52.2 x1: 513 ms' "$(frame 44 02 0A C0 C0 81 00 00 34 02 07 01 01 02)$lf"
decodes an-unsolicited-response 0 '1 10>2 44 UNCONFIRMED_USER_DATA 5 octets, words good
1   transport FIR FIN 0
1   response seq 0 fir fin con uns, iin 80 00 DEVICE_RESTART' "$(frame 44 02 0A C0 F0 82 80 00)$lf"
# times are in UTC: the day after 28 February of 2024, the last millisecond of 1999
for time in '2024-02-29T00:00:00.000Z' '1999-12-31T23:59:59.999Z' '2100-03-01T12:34:56.789Z'; do
    millis=$(date -ud "$time" +%s%3N)
    octets=$(for shift in 0 8 16 24 32 40; do printf ' %02X' $((millis >> shift & 255)); done)
    decodes "the-time-$time" 0 "1 10>2 44 UNCONFIRMED_USER_DATA 17 octets, words good
1   transport FIR FIN 0
1   response seq 1 fir fin, iin 00 00
1     2.2 x1: 3 = 0 flags 01 ONLINE at $time" "$(frame 44 02 0A C0 C1 81 00 00 02 02 17 01 03 01 $octets)$lf"
done

# Commands
decodes a-command 0 '1 2>10 C4 UNCONFIRMED_USER_DATA 19 octets, words good
1   transport FIR FIN 0
1   request seq 3 fir fin SELECT
1     12.1 x1: 5 code 81 count 2 on 100 off 200 status 0' \
    "$(frame C4 0A 02 C0 C3 03 0C 01 17 01 05 81 02 64 00 00 00 C8 00 00 00 00)$lf"
decodes a-setpoint 0 '1 2>10 C4 UNCONFIRMED_USER_DATA 11 octets, words good
1   transport FIR FIN 0
1   request seq 4 fir fin OPERATE
1     41.2 x1: 5 set -2 status 4' "$(frame C4 0A 02 C0 C4 04 29 02 17 01 05 FE FF 04)$lf"
# a READ names objects that are not there
decodes a-read-of-a-range 0 '1 2>10 C4 UNCONFIRMED_USER_DATA 10 octets, words good
1   transport FIR FIN 0
1   request seq 0 fir fin READ
1     30.0 0..65535' "$(frame C4 0A 02 C0 C0 01 1E 00 01 00 00 FF FF)$lf"

# The link layer alone
decodes a-reset 0 '1 1024>1 C0 RESET_LINK_STATES 0 octets, words good' "05 64 05 C0 01 00 00 04 E9 21$lf"
decodes a-reply 0 '1 1>1024 0B LINK_STATUS 0 octets, words good' "05 64 05 0B 00 04 01 00 5A 96$lf"

# Segments of two directions between each other, each joined apart
one=$(frame C4 0A 02 40 C0 01 3C)
two=$(frame C4 0A 02 81 02 06)
other=$(frame 44 02 0A C0 C0 81 00 00)
decodes two-directions 0 '1 2>10 C4 UNCONFIRMED_USER_DATA 4 octets, words good
1   transport FIR 0
2 10>2 44 UNCONFIRMED_USER_DATA 5 octets, words good
2   transport FIR FIN 0
2   response seq 0 fir fin, iin 00 00
3 2>10 C4 UNCONFIRMED_USER_DATA 3 octets, words good
3   transport FIN 1
3   request seq 0 fir fin READ
3     60.2 all' "$one$lf$other$lf$two$lf"
decodes a-series-that-is-dropped 1 '1 2>10 C4 UNCONFIRMED_USER_DATA 4 octets, words good
1   transport FIR 0
2 2>10 C4 UNCONFIRMED_USER_DATA 3 octets, words good
2   transport FIN 2
2   transport refused: Series' "$one$lf$(frame C4 0A 02 82 02 06)$lf"
decodes a-segment-without-data 1 '1 2>10 C4 UNCONFIRMED_USER_DATA 1 octets, words good
1   transport refused: Size, 1 octets' "$(frame C4 0A 02 C0)$lf"

# What is refused, and what goes on behind it
long=$(frame 44 02 0A C0 C0 81 00 00 1E 01 00 05 06 01 FF FF FF FF 81 00 00 01 00)
decodes a-wrong-block-check 1 "1 10>2 frame refused: BlockCheck 1 at octet 28
$(read_at 2)" "${long% *} 00$lf$asked$lf"
decodes a-length-of-4 1 "1 1>10 frame refused: Length at octet 2
$(read_at 2)" "05 64 04 C4 0A 00 01 00 4E 95$lf$asked$lf"
decodes noise 1 "1 3 octets skipped: no frame begins there
$read_lines" "FF 05 64 $asked$lf"
decodes a-wrong-header-check 1 "1 27 octets skipped: HeaderCheck at octet 8
$(read_at 2)" "${asked/8F ED/8F EE}$lf$asked$lf"
decodes a-frame-that-is-cut 1 "1 frame refused: Cut at octet 12" "${asked:0:35}$lf"
decodes an-unknown-object 1 '1 2>10 C4 UNCONFIRMED_USER_DATA 9 octets, words good
1   transport FIR FIN 0
1   request seq 0 fir fin READ
1     60.2 all
1   fragment refused: ObjectUnknown at octet 5' "$(frame C4 0A 02 C0 C0 01 3C 02 06 63 01 06)$lf"
decodes objects-that-are-cut 1 '1 10>2 44 UNCONFIRMED_USER_DATA 17 octets, words good
1   transport FIR FIN 0
1   response seq 0 fir fin, iin 00 00
1     1.1 0..2: 0 = 0 flags 01 ONLINE
1     1.1 0..2: 1 = 1 flags 01 ONLINE
1     1.1 0..2: 2 = 0 flags 01 ONLINE
1   fragment refused: ObjectsCut at octet 10' "$(frame 44 02 0A C0 C0 81 00 00 01 01 00 00 02 02 1E 01 00 05 06 01)$lf"
decodes an-unknown-function 1 '1 2>10 C4 UNCONFIRMED_USER_DATA 3 octets, words good
1   transport FIR FIN 0
1   fragment refused: FunctionUnknown at octet 1' "$(frame C4 0A 02 C0 C0 22)$lf"
decodes a-short-response 1 '1 10>2 44 UNCONFIRMED_USER_DATA 4 octets, words good
1   transport FIR FIN 0
1   fragment refused: Short at octet 3' "$(frame 44 02 0A C0 C0 81 00)$lf"
decodes what-is-no-text 1 "1 text refused: no hexadecimal digit in column 5
$(read_at 2)" "05 6G 05$lf$asked$lf"
decodes half-an-octet 1 '1 text refused: no hexadecimal digit in column 5' "05 6$lf"

# Octets
# octets TEXT: the octets that it writes
octets() { printf "$(sed 's/ *\([0-9A-Fa-f][0-9A-Fa-f]\)/\\x\1/g' <<<"$1")"; }
octets "FF $asked $asked" >octets
got=0
"$dnp" decode --raw <octets >out 2>err || got=$?
judge decodes-octets 1 "0 1 octets skipped: no frame begins there
$read_lines
$(read_at 28)" "$got"

# The first check word that is wrong, and the one that would be right
head_right=$(check 05 64 05 C0 01 00 00 04)
expect decodes-a-header-with-a-wrong-word 1 "$read_lines
2 1 octets skipped: HeaderCheck at octet 8
2 frame refused: Cut at octet 9" "$asked${lf}05 64 05 C0 01 00 00 04 E9 22$lf" decode
says says-the-right-word-of-a-header "dnp: standard input: line 2: at octet 8 of the frame, from 0, is E9 22, where the check word$head_right belongs"
# (a skipped octet before it, the first of two that are wrong, and digits without blanks)
wrong=${asked% *}
expect decodes-two-frames-with-a-wrong-word 1 "1 1 octets skipped: no frame begins there
1 1>10 frame refused: BlockCheck 0 at octet 10
1 1>10 frame refused: BlockCheck 0 at octet 10" "FF$(tr -d ' ' <<<"${wrong}00")${wrong}01$lf" decode
says says-the-right-word-of-the-first "dnp: standard input: line 1: at octet 25 of the frame, from 0, is 8A 00, where the check word$(check $(cut -d ' ' -f 11-25 <<<"$asked")) belongs"
octets "FF ${wrong}00" >octets
got=0
"$dnp" decode --raw <octets >out 2>err || got=$?
judge decodes-octets-with-a-wrong-word 1 '0 1 octets skipped: no frame begins there
1 1>10 frame refused: BlockCheck 0 at octet 10' "$got"
says says-the-right-word-in-octets "dnp: standard input: octet 1: at octet 25 of the frame, from 0, is 8A 00, where the check word$(check $(cut -d ' ' -f 11-25 <<<"$asked")) belongs"
expect decodes-a-wrong-word-beside-a-refused-line 1 '1 1>10 frame refused: BlockCheck 0 at octet 10
2 text refused: no hexadecimal digit in column 1' "${wrong}00${lf}x$lf" decode
says says-no-word-beside-a-refused-line ''

# JSON
decodes json 1 '{"at":1,"layer":"frame","source":10,"dest":2,"control":"44","function":"UNCONFIRMED_USER_DATA","octets":17}
{"at":1,"layer":"transport","fir":true,"fin":true,"number":0,"octets":16}
{"at":1,"layer":"response","seq":1,"fir":true,"fin":true,"con":true,"uns":false,"function":"RESPONSE","iin":["00","00"]}
{"at":1,"layer":"header","group":2,"variation":2,"range":"indexed","count":1,"octets":8}
{"at":1,"layer":"row","kind":"binary","index":3,"value":1,"flags":"01","time":1000}
{"at":2,"layer":"frame","source":10,"dest":2,"control":"44","refused":"BlockCheck","block":1,"octet":28}
{"at":3,"layer":"frame","refused":"Cut","octet":2}
{"at":4,"layer":"text","refused":"Digit","column":1}' "$event$lf${long% *} 00$lf"'FF FF'"$lf"x"$lf" --json
decodes json-of-a-request 1 '{"at":1,"layer":"frame","source":2,"dest":10,"control":"C4","function":"UNCONFIRMED_USER_DATA","octets":9}
{"at":1,"layer":"transport","fir":true,"fin":true,"number":0,"octets":8}
{"at":1,"layer":"request","seq":0,"fir":true,"fin":true,"con":false,"uns":false,"function":"READ"}
{"at":1,"layer":"header","group":60,"variation":2,"range":"all","octets":0}
{"at":1,"layer":"fragment","refused":"ObjectUnknown","octet":5}' "$(frame C4 0A 02 C0 C0 01 3C 02 06 63 01 06)$lf" --json

decodes json-of-objects 1 '{"at":1,"layer":"frame","source":2,"dest":10,"control":"C4","function":"UNCONFIRMED_USER_DATA","octets":37}
{"at":1,"layer":"transport","fir":true,"fin":true,"number":0,"octets":36}
{"at":1,"layer":"request","seq":0,"fir":true,"fin":true,"con":false,"uns":false,"function":"SELECT"}
{"at":1,"layer":"header","group":12,"variation":1,"range":"indexed","count":1,"octets":12}
{"at":1,"layer":"command","command":"block","index":5,"code":129,"count":2,"on_ms":100,"off_ms":200,"status":0}
{"at":1,"layer":"header","group":41,"variation":2,"range":"indexed","count":1,"octets":4}
{"at":1,"layer":"command","command":"set16","index":5,"value":-2,"status":4}
{"at":1,"layer":"header","group":41,"variation":1,"range":"indexed","count":1,"octets":6}
{"at":1,"layer":"command","command":"set32","index":6,"value":65536,"status":0}
{"at":2,"layer":"frame","source":10,"dest":2,"control":"44","function":"UNCONFIRMED_USER_DATA","octets":11}
{"at":2,"layer":"transport","fir":true,"fin":true,"number":0,"octets":10}
{"at":2,"layer":"response","seq":0,"fir":true,"fin":true,"con":false,"uns":false,"function":"RESPONSE","iin":["80","00"]}
{"at":2,"layer":"header","group":10,"variation":2,"range":"span","first":3,"last":3,"octets":1}
{"at":2,"layer":"row","kind":"output","index":3,"value":1,"flags":"01","time":null}
{"at":3,"layer":"frame","source":2,"dest":10,"control":"C4","function":"UNCONFIRMED_USER_DATA","octets":9}
{"at":3,"layer":"transport","fir":true,"fin":true,"number":0,"octets":8}
{"at":3,"layer":"request","seq":0,"fir":true,"fin":true,"con":false,"uns":false,"function":"WRITE"}
{"at":3,"layer":"header","group":80,"variation":1,"range":"span","first":7,"last":7,"octets":1}
{"at":3,"layer":"indication","index":7,"value":0}
{"at":4,"layer":"frame","source":10,"dest":2,"control":"44","function":"UNCONFIRMED_USER_DATA","octets":11}
{"at":4,"layer":"transport","fir":true,"fin":true,"number":0,"octets":10}
{"at":4,"layer":"response","seq":0,"fir":true,"fin":true,"con":false,"uns":false,"function":"RESPONSE","iin":["00","00"]}
{"at":4,"layer":"header","group":52,"variation":2,"range":"count","count":1,"octets":2}
{"at":4,"layer":"delay","ms":513}
{"at":5,"layer":"frame","refused":"HeaderCheck","octet":8,"octets":1}
{"at":5,"layer":"frame","refused":"Cut","octet":9}' "$(frame C4 0A 02 C0 C0 03 0C 01 17 01 05 81 02 64 00 00 00 C8 00 00 00 00 29 02 17 01 05 FE FF 04 29 01 17 01 06 00 00 01 00 00)$lf$(frame 44 02 0A C0 C0 81 80 00 0A 02 00 03 03 81)$lf$(frame C4 0A 02 C0 C0 02 50 01 00 07 07 00)$lf$(frame 44 02 0A C0 C0 81 00 00 34 02 07 01 01 02)$lf"'05 64 05 C0 01 00 00 04 E9 22'"$lf" --json

# Captures, each packet of raw IPv4 (RFC 791) and TCP (RFC 9293)
# le NUMBER OCTETS, be NUMBER OCTETS: a number in hexadecimal, the low or the high octet first
le() { for ((i = 0; i < $2; i++)); do printf ' %02X' $(($1 >> 8 * i & 255)); done; }
be() { for ((i = $2 - 1; i >= 0; i--)); do printf ' %02X' $(($1 >> 8 * i & 255)); done; }
# tcp FROM TO SEQUENCE FLAGS OCTETS: a packet between 10.0.0.FROM and 10.0.0.TO, port 20000 to 20000
tcp() {
    local data=($5)
    local size=$((40 + ${#data[@]}))
    printf '%s' "$(le 0 8)$(le $size 4)$(le $size 4) 45 00$(be $size 2) 00 00 40 00 40 06 00 00 0A 00 00 0$1 0A 00 00 0$2"
    printf '%s' "$(be 20000 2)$(be 20000 2)$(be "$3" 4) 00 00 00 00 50 $4 20 00 00 00 00 00"
    ((${#data[@]} == 0)) || printf ' %s' "${data[*]}"
}
header="D4 C3 B2 A1 02 00 04 00$(le 0 8) FF FF 00 00$(le 101 4)"
# the request in two parts that come in the wrong order, and the first again; the answer between them, from the other side
octets "$header$(tcp 1 2 999 02 '')$(tcp 1 2 1014 18 "${asked:42}")$(tcp 2 1 5000 18 "$other")$(tcp 1 2 1000 18 "${asked:0:41}")$(tcp 1 2 1000 18 "${asked:0:41}")" >capture
got=0
"$dnp" decode --pcap capture >out 2>err </dev/null || got=$?
judge decodes-a-capture 0 "$(read_at 2)
3 10>2 44 UNCONFIRMED_USER_DATA 5 octets, words good
3   transport FIR FIN 0
3   response seq 0 fir fin, iin 00 00" "$got"
# the numbers of a capture with their high octets first, nanoseconds, and Ethernet
octets "A1 B2 3C 4D 00 02 00 04$(le 0 8) 00 00 FF FF$(be 1 4)$(be 0 8)$(be 58 4)$(be 58 4) 01 02 03 04 05 06 01 02 03 04 05 06 08 00 45 00$(be 38 2) 00 00 40 00 40 11 00 00 0A 00 00 01 0A 00 00 02$(be 20000 2)$(be 20000 2)$(be 18 2) 00 00 05 64 05 C0 01 00 00 04 E9 21 00 00 00 00 00 00" >capture
got=0
"$dnp" decode --pcap capture >out 2>err </dev/null || got=$?
judge decodes-ethernet-and-udp 0 '1 1024>1 C0 RESET_LINK_STATES 0 octets, words good' "$got"
# the last packet is cut
octets "$header$(tcp 1 2 1000 18 "$asked")$(le 0 8)$(le 50 4)$(le 50 4) 45" >capture
got=0
"$dnp" decode --pcap capture >out 2>err </dev/null || got=$?
judge decodes-up-to-a-cut-packet 1 "$read_lines
2 packet refused: the capture ends in it" "$got"
# what is no DNP3 is left out
octets "$header$(tcp 1 2 1000 18 '47 45 54 20 2F 20 48 54 54 50 2F 31 2E 31')" >capture
got=0
"$dnp" decode --pcap capture >out 2>err </dev/null || got=$?
judge leaves-out-other-streams 0 '' "$got"
# refuses NAME FAULT OCTETS: a file that is no capture that is read here
refuses() {
    octets "$3" >capture
    got=0
    "$dnp" decode --pcap capture >out 2>err </dev/null || got=$?
    judge "refuses-$1" 1 "refused capture $2" "$got"
}
refuses an-empty-file Start ''
refuses a-text Start '48 65 6C 6C 6F'
refuses a-header-that-is-cut Start "${header:0:50}"
refuses a-newer-capture-that-is-cut Start '0A 0D 0D 0A 1C 00 00 00'
refuses another-link Link "${header% 65 00 00 00} 69 00 00 00"
says names-the-link "dnp: capture: packets of link type 105, where 1 (Ethernet), 101 (raw IP), 0 (loopback), 113 or 276 (Linux's any) is read"

# The command line, and a lost input or output
for words in 'decode x' 'decode --far' 'decode --pcap' 'decode --raw=1' 'decode --raw --pcap capture'; do
    expect "takes-no-words:dnp $words" 2 '' "$asked$lf" $words
done
expect fails-without-the-file 3 '' '' decode --pcap nowhere
says names-the-file 'dnp: nowhere: No such file or directory (os error 2)'
got=0
"$dnp" decode <<<"$asked" >/dev/full 2>err || got=$?
: >out
judge fails-where-the-output-is-full 3 '' "$got"
says tells-that-the-output-is-full 'dnp: standard output: No space left on device (os error 28)'
