#!/bin/bash
# `dnp answer` from the shell.
. "$(dirname "${BASH_SOURCE[0]}")/../expect.bash"

lf=$'\n'
# Master 1 asks outstation 10 for class 1, 2, 3 and 0 data; outstation 10 answers that it has restarted.
asked='05 64 14 C4 0A 00 01 00 8F ED C0 C0 01 3C 02 06 3C 03 06 3C 04 06 3C 01 06 8A 51'
answered='05 64 0A 44 01 00 0A 00 6E 25 C0 C0 81 80 00 B3 F3'
text='refused 0 Text'

# What is read
expect answers 0 "$answered" "$asked$lf" answer
expect answers-with-no-line-feed 0 "$answered" "$asked" answer
expect answers-lower-case-digits 0 "$answered" "${asked,,}$lf" answer
expect answers-at-its-own-address 0 "$answered" "$asked$lf" answer --own 0010 --peer=1
expect is-silent-to-another-address 0 'no answer' "$asked$lf" answer --own 11

# What the link layer replies
link='answer --own 1 --peer 1024'
expect acknowledges-a-reset 0 '05 64 05 00 00 04 01 00 19 A6' "05 64 05 C0 01 00 00 04 E9 21$lf" $link
expect tells-the-link-status 0 '05 64 05 0B 00 04 01 00 5A 96' "05 64 05 C9 01 00 00 04 A6 57$lf" $link
expect refuses-a-test-before-a-reset 0 '05 64 05 01 00 04 01 00 1F 85' "05 64 05 D2 01 00 00 04 77 CD$lf" $link
expect refuses-confirmed-data-before-a-reset 0 '05 64 05 01 00 04 01 00 1F 85' \
    "05 64 0B F3 01 00 00 04 29 07 C0 C0 01 3C 02 06 54 E0$lf" $link
expect supports-no-other-function 0 '05 64 05 0F 00 04 01 00 42 1A' "05 64 05 C1 01 00 00 04 EF 02$lf" $link
expect is-silent-to-a-reply 0 'no answer' "05 64 05 80 01 00 00 04 53 11$lf" $link
expect is-silent-to-an-outstation 0 'no answer' "05 64 05 40 01 00 00 04 9D 40$lf" $link
expect is-silent-to-no-data 0 'no answer' "05 64 05 C4 01 00 00 04 F1 AD$lf" $link
expect is-silent-to-a-stranger 0 'no answer' "05 64 05 C0 01 00 00 04 E9 21$lf" answer --own 1 --peer 1023

# What the outstation answers
# asks NAME REQUEST RESPONSE: master 1 sends outstation 10 the request in one segment, and gets the response, or nothing
asks() {
    local wanted='no answer'
    [ -z "$3" ] || wanted=$(frame 44 01 0A C0 $3)
    expect "$1" 0 "$wanted" "$(frame C4 0A 01 C0 $2)$lf" answer
}
asks knows-no-function 'C0 0D' 'C0 81 80 01'
asks knows-no-object 'C0 01 6E 00 06' 'C0 81 80 02'
asks takes-no-cut-header 'C0 01 3C 02' 'C0 81 80 04'
asks takes-no-other-qualifier 'C0 01 3C 02 00 00 00' 'C0 81 80 04'
asks takes-no-range-backward 'C0 01 01 02 00 05 04' 'C0 81 80 04'
asks clears-the-restart 'C0 02 50 01 00 07 07 00' 'C0 81 00 00'
asks writes-no-other-indication 'C1 02 50 01 00 06 06 00' 'C1 81 80 04'
asks ignores-a-confirm 'C0 00' ''
asks ignores-a-report-from-a-master 'D0 01 3C 02 06' ''
asks ignores-a-fragment-without-its-first '40 01 3C 02 06' ''
asks ignores-a-fragment-without-its-last '80 01 3C 02 06' ''
asks ignores-a-response 'C0 81 80 00' ''
asks ignores-one-octet 'C0' ''
asks answers-a-read-of-nothing 'C7 01' 'C7 81 80 00'
asks answers-a-read-that-wants-a-confirm 'E7 01 3C 02 06' 'C7 81 80 00'
for header in '3C 01 06' '3C 0'{2..4}{' 06',' 07 05',' 08 05 00'} {'02 00','02 02','16 00','16 05','20 00','20 03'}{' 06',' 07 05',' 08 05 00'} \
    {'01 00','01 02','0A 00','0A 02','14 00','14 01','1E 00','1E 01'}' 06'; do
    asks "reads-nothing-by:$header" "C0 01 $header" 'C0 81 80 00'
done
for header in {'01 00','01 02','0A 00','0A 02','14 00','14 01','1E 00','1E 01'}{' 00 00 00',' 01 00 00 FF FF'}; do
    asks "has-no-point-of:$header" "C0 01 $header" 'C0 81 80 04'
done
asks enables-a-class 'C0 14 3C 02 06 3C 04 06' 'C0 81 80 00'
asks disables-a-class 'C0 15 3C 03 06' 'C0 81 80 00'
asks enables-no-present-values 'C0 14 3C 01 06' 'C0 81 80 02'
asks enables-no-number-of-events 'C0 15 3C 02 07 01' 'C0 81 80 04'
asks measures-no-delay 'C0 17' 'C0 81 80 00 34 02 07 01 00 00'
asks measures-no-delay-whatever-follows 'C9 17 FF' 'C9 81 80 00 34 02 07 01 00 00'
asks takes-a-time 'C0 02 32 01 07 01 E8 03 00 00 00 00' 'C0 81 80 00'
asks takes-a-time-and-clears-the-restart 'C0 02 32 01 08 01 00 E8 03 00 00 00 00 50 01 00 07 07 00' 'C0 81 00 00'
asks takes-no-two-times-at-once 'C0 02 32 01 07 02 E8 03 00 00 00 00 E9 03 00 00 00 00' 'C0 81 80 04'
asks takes-no-time-beside-what-is-unknown 'C0 02 32 01 07 01 E8 03 00 00 00 00 3C 02 06' 'C0 81 80 02'

# What controls are answered where there are no outputs. SELECT and DIRECT_OPERATE: NOT_SUPPORTED. OPERATE without its
# select: NO_SELECT. Two commands, since there is room for one: TOO_MANY_OBJS each. DIRECT_OPERATE_NR has no answer,
# in error either.
# controls NAME OBJECTS SELECTED OPERATED: the four requests of these objects, which come back with other statuses
controls() {
    asks "selects-none:$1" "C3 03 $2" "C3 81 80 00 $3"
    asks "operates-without-a-select-none:$1" "C4 04 $2" "C4 81 80 00 $4"
    asks "operates-directly-none:$1" "C5 05 $2" "C5 81 80 00 $3"
    asks "operates-and-does-not-answer:$1" "C6 06 $2" ''
}
for object in '0C 01:81 02 64 00 00 00 C8 00 00 00' '29 01:70 11 01 00' '29 02:FE FF'; do
    for place in '17 01 05' '28 01 00 05 01'; do
        command="${object%:*} $place ${object#*:}"
        controls "$command" "$command 00" "$command 04" "$command 02"
    done
done
controls a-status-with-the-bit-above-it '29 02 17 01 05 FE FF 80' '29 02 17 01 05 FE FF 04' '29 02 17 01 05 FE FF 02'
controls no-command '29 02 17 00' '29 02 17 00' '29 02 17 00'
controls no-header '' '' ''
two='29 02 17 02 05 FE FF 08 06 FE FF 08'
controls two-of-a-header '29 02 17 02 05 FE FF 00 06 FE FF 00' "$two" "$two"
two='29 02 17 01 05 FE FF 08 29 01 28 01 00 05 00 70 11 01 00 08'
controls two-under-two-headers '29 02 17 01 05 FE FF 00 29 01 28 01 00 05 00 70 11 01 00 04' "$two" "$two"
for wrong in '0C 01:04' '0C 01 28 01:04' '0C 01 28 01 00 05 00:04' '0C 01 28 FF FF:04' '29 02 17 02 05 FE FF 00 06 FE FF:04' \
    '0C 01 06:04' '0C 01 07 01 03 01 00 00 00 00 00 00 00 00 00:04' '0C 02 06:02' '29 03 17 01 05 00 00 00 00 00:02' \
    '3C 02 06:02' '32 01 07 01 E8 03 00 00 00 00:02' '29 02 17 01 05 FE FF 00 0C 02 06:02'; do
    for function in 03 04 05; do
        asks "controls-nothing-by:$function ${wrong%:*}" "C0 $function ${wrong%:*}" "C0 81 80 ${wrong#*:}"
    done
    asks "controls-nothing-by:06 ${wrong%:*}" "C0 06 ${wrong%:*}" ''
done

# What is refused as a frame
expect refuses-no-octets 1 'refused 1 Short' '' answer
expect refuses-an-empty-line 1 'refused 1 Short' "$lf" answer
expect refuses-9-octets 1 'refused 1 Short' "${asked:0:26}$lf" answer
expect refuses-another-start 1 'refused 2 Start' "04${asked:2}$lf" answer
expect refuses-a-wrong-header-check 1 'refused 3 HeaderCheck' "${asked/8F ED/8E ED}$lf" answer
expect refuses-a-length-of-4 1 'refused 4 Length' "05 64 04 C4 0A 00 01 00 4E 95$lf" answer
expect refuses-20-octets 1 'refused 5 Size' "${asked:0:59}$lf" answer
expect refuses-a-wrong-block-check 1 'refused 6 BlockCheck 0' "${asked%51}52$lf" answer

# The check word that would be right, which standard error says: as `check` makes it
# corrects NAME PLACE STANDS BELONGS INPUT: the word at this octet of the frame is wrong
corrects() {
    expect "refuses-a-wrong-word:$1" 1 "refused $6" "$5$lf" answer
    says "says-the-right-word:$1" "dnp: standard input: at octet $2 of the frame, from 0, is $3, where the check word$4 belongs"
}
corrects of-the-header 8 '8E ED' "$(check 05 64 14 C4 0A 00 01 00)" "${asked/8F ED/8E ED}" '3 HeaderCheck'
corrects of-the-block 25 '8A 52' "$(check $(cut -d ' ' -f 11-25 <<<"$asked"))" "${asked%51}52" '6 BlockCheck 0'
three=$(frame C4 0A 01 $(printf 'C0 %.0s' {1..40}))
corrects of-the-third-block 54 'FF FF' "$(check $(printf 'C0 %.0s' {1..8}))" "${three% * *} FF FF" '6 BlockCheck 2'
corrects of-the-second-block 44 "00 ${three:135:2}" "$(check $(printf 'C0 %.0s' {1..16}))" "${three:0:132}00 ${three:135}" '6 BlockCheck 1'
# (the first that is wrong, in small letters too)
both=${asked/8F ED/8E ED}
corrects the-first 8 '8E ED' "$(check 05 64 14 C4 0A 00 01 00)" "$(tr A-F a-f <<<"${both%51}52" | tr -d '\n')" '3 HeaderCheck'
expect refuses-no-word-that-is-right 1 'refused 5 Size' "$asked 00$lf" answer
says says-no-word-where-the-size-is-wrong ''

# What is refused as text, and what standard error says of it. 667 octets are 2,000 characters, and 668 are 2,003.
long=$asked$(printf ' 00%.0s' {1..640})
expect reads-2000-characters 1 'refused 5 Size' "$long$lf" answer
says is-quiet-on-what-is-no-fault-of-the-text ''
# refuses NAME INPUT WHY
refuses() {
    expect "refuses-$1" 1 "$text" "$2" answer
    says "tells-of-$1" "dnp: standard input: $3"
}
refuses two-spaces "${asked/05 64/05  64}$lf" 'column 4: a space, where a hexadecimal digit belongs'
refuses a-tab "${asked/05 64/05$'\t'64}$lf" 'column 3: a tab, where one space or the end belongs'
refuses no-space "${asked/05 64/0564}$lf" "column 3: '6', where one space or the end belongs"
refuses an-odd-digit "${asked%1}$lf" 'column 80: the line ends, where a hexadecimal digit belongs'
refuses another-letter "${asked%1}G$lf" "column 80: 'G', where a hexadecimal digit belongs"
refuses a-carriage-return "$asked"$'\r'"$lf" 'column 81: a carriage return, where one space or the end belongs'
refuses a-space-at-the-end "$asked $lf" 'column 82: the line ends, where a hexadecimal digit belongs'
refuses a-space-at-the-start " $asked$lf" 'column 1: a space, where a hexadecimal digit belongs'
refuses two-line-feeds "$asked$lf$lf" 'column 81: a line feed, where one space or the end belongs'
refuses two-lines "$asked$lf$asked$lf" 'column 81: a line feed, where one space or the end belongs'
refuses what-is-no-text $'\xff\xfe\n' 'column 1: the octet FF, where a hexadecimal digit belongs'
refuses 2001-characters "${long}0$lf" 'the line has more than 2,000 characters'
refuses 2003-characters "$long 00$lf" 'the line has more than 2,000 characters'
refuses a-long-input "$(printf '00 %.0s' {1..100000})" 'the line has more than 2,000 characters'

# The command line
for words in '' 'reply' 'answer --own' 'answer --own 65520' 'answer --own 99999999999999999999' 'answer --own +1' \
    'answer --own=-1' 'answer --own x' 'answer --own=' 'answer --own 0x1' 'answer --peer 65520' 'answer 10' 'answer --far 1'; do
    # (each word is an argument of its own)
    expect "takes-no-words:dnp ${words:-(none)}" 2 '' "$asked$lf" $words
done
# misuses NAME WORDS SAID: words that are refused, with what is said of them before the usage
misuses() {
    expect "takes-no-words:$1" 2 '' '' $2
    sed '/^Usage: /,$d' err >said && mv said err
    says "says-what-is-wrong-with:$1" "error: $3$lf"
}
file="names the plan, and the script stands on standard input, as in 'dnp sim --plan plan.toml <script'"
misuses a-frame "answer 05" "unexpected argument '05' found

  tip: the frame stands on standard input, as in 'dnp answer <FILE'"
misuses a-control "centre --plan p --issue 0 trip" "unexpected argument 'trip' found

  tip: each file has its option's name before it, and the words of a control stand within quotation marks, as in --issue '0 trip 3 100ms'"
misuses a-plan-to-check "check plan.toml" "unexpected argument 'plan.toml' found

  tip: '--plan <FILE>' names the plan, and '--network <FILE>' says where its stations are"
misuses a-plan-to-concentrate "concentrate plan.toml" "unexpected argument 'plan.toml' found

  tip: each file and each port has its option's name before it, as in '--plan <FILE>'"
misuses a-capture "decode file.pcap" "unexpected argument 'file.pcap' found

  tip: '--pcap <FILE>' names a capture, and all else stands on standard input, as in 'dnp decode <FILE'"
misuses a-script "sim plan.toml script" "unexpected argument 'plan.toml' found

  tip: '--plan <FILE>' $file"
misuses a-script-behind-a-plan "loopback --plan plan.toml script" "unexpected argument 'script' found

  tip: '--plan <FILE>' $file"
misuses a-plan-to-serve "outstation plan.toml" "unexpected argument 'plan.toml' found

  tip: '--plan <FILE>' names the plan, and '--station <S>' the substation in it"
misuses a-command-in-words "poll 127.0.0.1:1 --operate trip 3" "unexpected argument '3' found

  tip: the words of a command stand within quotation marks, as in --operate 'trip 3 100ms'"
misuses a-store "rows journal.db" "unexpected argument 'journal.db' found

  tip: '--journal <FILE>', '--queue <FILE>' or '--controls <FILE>' names the store"
misuses an-option-that-is-none "sim --verson" "unexpected argument '--verson' found

  tip: a similar argument exists: '--version'"
misuses an-option-like-none "answer --far 1" "unexpected argument '--far' found"
# (a number below 0 is the value, and not an option)
expect takes-no-address-below-0 2 '' '' answer --own -1
says says-which-addresses-there-are "error: invalid value '-1' for '--own <ADDRESS>': not a decimal number from 0 to 65519

For more information, try '--help'."
expect takes-no-space-in-an-address 2 '' "$asked$lf" answer --own ' 1'
expect takes-no-argument-that-is-no-text 2 '' "$asked$lf" answer --own $'\xff'
expect takes-the-last-address 0 'no answer' "$asked$lf" answer --own 65519 --peer 65519

# Help: what the program prints is what ./dnp prints where it is not built
for words in '--help' 'answer --help' 'decode --help' 'outstation --help' 'help' 'help answer' 'help decode' 'help outstation'; do
    got=0
    "$dnp" $words >out 2>err </dev/null || got=$?
    case $words in
    *answer*) file=answer ;;
    *decode*) file=decode ;;
    *outstation*) file=outstation ;;
    *) file=dnp ;;
    esac
    judge "helps:dnp $words" 0 "$(cat "$top/crates/dnp/help/$file")" "$got"
done
mkdir -p unbuilt/crates/dnp/src
cp "$top/dnp" unbuilt/dnp
cp -r "$top/tools" unbuilt/tools
cp -r "$top/crates/dnp/help" unbuilt/crates/dnp/help
cp "$top/crates/dnp/src/main.rt" unbuilt/crates/dnp/src
cp "$top/crates.txt" unbuilt
for words in --help:dnp -h:dnp help:dnp {answer,centre,concentrate,decode,loopback,outstation,poll,sim}' --help:' \
    {answer,centre,concentrate,decode,loopback,outstation,poll,sim}' -h:' 'help '{answer,centre,concentrate,decode,loopback,outstation,poll,sim}:; do
    case $words in
    *' '*) words=$words$(tr ' ' '\n' <<<"${words%:}" | grep -v -e help -e -h) ;;
    esac
    got=0
    PATH=/usr/bin:/bin unbuilt/dnp ${words%:*} >out 2>err </dev/null || got=$?
    judge "helps-without-a-build:dnp ${words%:*}" 0 "$(cat "$top/crates/dnp/help/${words#*:}")" "$got"
done

# The version, and which build it is, by what stands beside the program: without that it says nothing of it
. "$top/tools/program.bash"
for word in --version -V; do
    expect "says-its-version-and-build:$word" 0 "dnp $(version) ($(said_of "$program"))" '' "$word"
done
for name in answer centre check concentrate decode loopback outstation poll rows sim; do
    expect "says-its-version-behind:$name" 0 "dnp $(version) ($(said_of "$program"))" '' "$name" --version
done
cp "$program" alone
got=0
./alone --version >out 2>err </dev/null || got=$?
judge says-its-version-where-nothing-is-beside-it 0 "dnp $(version)" "$got"
printf 'proved, by a test\nand more\n' >alone.build
./alone --version >out 2>err </dev/null || got=$?
judge says-the-first-line-alone 0 "dnp $(version) (proved, by a test)" "$got"
for said in '' '\n' 'a\tb\n' '\xff\n'; do
    printf "$said" >alone.build
    ./alone --version >out 2>err </dev/null || got=$?
    judge "says-nothing-of:$said" 0 "dnp $(version)" "$got"
done
rm alone alone.build

# Words that are refused: what ./dnp says of them where it is not built is what the program says
for words in '' foo help\ foo -x answer\ extra 'answer --own=3 y' sim 'sim extra' loopback 'loopback extra' \
    'sim --json' 'outstation --connections 3 --plan p --far 1' outstation 'outstation --port 1' 'outstation --plan p x' 'outstation extra' centre 'centre --new x' 'centre --plan p --rounds 1' \
    'centre --every 3 --plan p' 'centre --every 3 --forever --plan p' 'outstation --plan p --network n' concentrate 'concentrate --plan p --new' 'concentrate --new --issue x' \
    'concentrate --every 5' 'concentrate --below 3 --every 5' 'concentrate --plan p --network n' 'concentrate x' 'check x' 'decode x' \
    'concentrate --plan p --port 5' 'concentrate --below 5 --far' 'centre --port 3 --far 1' 'centre --port 3' 'concentrate --plan p --port2 5 --far'; do
    "$dnp" $words >want 2>want.err </dev/null
    wanted=$?
    got=0
    PATH=/usr/bin:/bin unbuilt/dnp $words >out 2>err </dev/null || got=$?
    if [ "$got" = "$wanted" ] && cmp -s want out && cmp -s want.err err; then
        echo "ok refuses-without-a-build:dnp ${words:-(none)}"
    else
        echo "FAILED refuses-without-a-build:dnp ${words:-(none)}"
        diff want.err err | sed 's/^/    /'
    fi
done

got=0
PATH=/usr/bin:/bin unbuilt/dnp answer --own 3 --far 1 >out 2>err </dev/null || got=$?
judge refuses-an-option-without-a-build 2 '' "$got"
grep -q "^error: unexpected argument '--far' found$" err && echo ok names-the-option-without-a-build || echo FAILED names-the-option-without-a-build

# A lost input or output
: >out
got=0
"$dnp" answer <<<"$asked" >/dev/full 2>err || got=$?
judge fails-where-the-output-is-full 3 '' "$got"
says tells-that-the-output-is-full 'dnp: standard output: No space left on device (os error 28)'
got=0
"$dnp" answer <<<"$asked" >&- 2>err || got=$?
judge fails-where-the-output-is-closed 3 '' "$got"
says tells-that-the-output-is-closed 'dnp: standard output: Bad file descriptor (os error 9)'
got=0
"$dnp" answer <&- >out 2>err || got=$?
judge fails-where-the-input-is-closed 3 '' "$got"
says tells-that-the-input-is-closed 'dnp: standard input: Bad file descriptor (os error 9)'
got=0
"$dnp" answer <"$room" >out 2>err || got=$?
judge fails-where-the-input-is-a-folder 3 '' "$got"
says tells-that-the-input-is-a-folder 'dnp: standard input: Is a directory (os error 21)'
got=0
"$dnp" answer --help >/dev/full 2>err || got=$?
judge fails-where-help-is-lost 3 '' "$got"
says tells-that-help-is-lost 'dnp: standard output: No space left on device (os error 28)'

# Other folders
ln -s "$dnp" linked
got=0
./linked answer <<<"$asked" >out 2>err || got=$?
judge answers-through-a-link 0 "$answered" "$got"
got=0
(cd "$top" && ./dnp answer <<<"$asked") >out 2>err || got=$?
judge answers-at-the-top 0 "$answered" "$got"
