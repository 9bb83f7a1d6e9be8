#!/bin/bash
# What `dnp decode` reads: captures of both forms, of Ethernet and of Linux's `any`, and hexadecimal octets as people have them. What is
# expected is worked by hand, from IEEE Std 1815-2012 and from the drafts of pcap and pcapng.
. "$(dirname "${BASH_SOURCE[0]}")/../expect.bash"

lf=$'\n'
# octets TEXT: the octets that it writes
octets() { printf "$(sed 's/ *\([0-9A-Fa-f][0-9A-Fa-f]\)/\\x\1/g' <<<"$1")"; }
# le NUMBER OCTETS, be NUMBER OCTETS: a number in hexadecimal, the low or the high octet first
le() { for ((i = 0; i < $2; i++)); do printf ' %02X' $(($1 >> 8 * i & 255)); done; }
be() { for ((i = $2 - 1; i >= 0; i--)); do printf ' %02X' $(($1 >> 8 * i & 255)); done; }
# udp OCTETS: a packet of IPv4 with a datagram between 10.0.0.1 and 10.0.0.2, port 20000 to 20000
udp() {
    local data=($1)
    printf '%s' "45 00$(be $((28 + ${#data[@]})) 2) 00 00 40 00 40 11 00 00 0A 00 00 01 0A 00 00 02$(be 20000 2)$(be 20000 2)$(be $((8 + ${#data[@]})) 2) 00 00 $1"
}
# block ORDER TYPE OCTETS: a block of pcapng, with its numbers in that order
block() {
    local body=($3)
    while ((${#body[@]} % 4)); do body+=(00); done
    local size=$((12 + ${#body[@]}))
    printf '%s %s%s' "$($1 "$2" 4)$($1 $size 4)" "${body[*]}" "$($1 $size 4)"
}
# section ORDER, interface ORDER LINK, packet ORDER INTERFACE OCTETS
section() { block "$1" 0x0A0D0D0A "$($1 0x1A2B3C4D 4)$($1 1 2)$($1 0 2) FF FF FF FF FF FF FF FF"; }
interface() { block "$1" 1 "$($1 "$2" 2) 00 00$($1 65535 4)"; }
packet() {
    local data=($3)
    block "$1" 6 "$($1 "$2" 4)$($1 0 8)$($1 ${#data[@]} 4)$($1 ${#data[@]} 4) $3"
}
# captured NAME STATUS LINES OCTETS: what is printed of a capture with these octets
captured() {
    local got=0
    octets "$4" >capture
    "$dnp" decode --pcap capture >out 2>err </dev/null || got=$?
    judge "decodes-$1" "$2" "$3" "$got"
}

frame='05 64 05 C0 01 00 00 04 E9 21'
line='1024>1 C0 RESET_LINK_STATES 0 octets, words good'
one=$(udp "$frame")
for order in le be; do
    captured "pcapng-$order" 0 "1 $line$lf""2 $line" "$(section $order)$(interface $order 101)$(packet $order 0 "$one")$(packet $order 0 "$one")"
done
captured pcapng-of-ethernet 0 "1 $line" "$(section le)$(interface le 1)$(packet le 0 "01 02 03 04 05 06 01 02 03 04 05 06 08 00 $one")"
captured pcapng-of-any 0 "1 $line" "$(section le)$(interface le 113)$(packet le 0 "00 00 03 04 00 06 00 00 00 00 00 00 00 00 08 00 $one")"
captured pcapng-of-any-two 0 "1 $line" "$(section le)$(interface le 276)$(packet le 0 "08 00 00 00 00 00 00 01 00 01 00 06 00 00 00 00 00 00 00 00 $one")"
# a simple packet, an old one, and blocks that have none
data=($one)
captured pcapng-of-other-blocks 0 "1 $line$lf""2 $line" "$(section le)$(block le 4 '00 00 00 00')$(interface le 101)$(block le 3 "$(le ${#data[@]} 4) $one")$(block le 5 '01 02 03 04')$(block le 2 "$(le 0 2)$(le 0 2)$(le 0 8)$(le ${#data[@]} 4)$(le ${#data[@]} 4) $one")$(block le 0x00000BAD '01 02 03 04')"
# packets of an interface that isn't read are counted and left out, and so are those of none
captured pcapng-of-two-interfaces 0 "2 $line" "$(section le)$(interface le 101)$(interface le 105)$(packet le 1 "$one")$(packet le 0 "$one")$(packet le 7 "$one")"
captured pcapng-of-two-sections 0 "1 $line$lf""2 $line" "$(section le)$(interface le 101)$(packet le 0 "$one")$(section be)$(interface be 1)$(packet be 0 "01 02 03 04 05 06 01 02 03 04 05 06 08 00 $one")"
captured pcapng-without-packets 0 '' "$(section le)$(interface le 101)"
# what is cut or lies ends the capture
cut="1 $line$lf""2 packet refused: the capture ends in it"
whole="$(section le)$(interface le 101)$(packet le 0 "$one")"
captured pcapng-that-is-cut 1 "$cut" "$whole 06 00 00 00 40 00 00 00 00"
captured pcapng-with-a-size-of-8 1 "$cut" "$whole 06 00 00 00 08 00 00 00 08 00 00 00"
captured pcapng-with-a-size-of-13 1 "$cut" "$whole 06 00 00 00 0D 00 00 00 00 0D 00 00 00 00 00 00"
captured pcapng-with-two-sizes 1 "$cut" "$whole 05 00 00 00 0C 00 00 00 10 00 00 00"
captured pcapng-with-a-packet-over-its-block 1 "$cut" "$whole$(block le 6 "$(le 0 4)$(le 0 8)$(le 99 4)$(le 99 4) $one")"
captured pcapng-with-a-section-without-order 1 "$cut" "$whole$(block le 0x0A0D0D0A '00 00 00 00 01 00 00 00 FF FF FF FF FF FF FF FF')"
captured pcapng-without-order 1 'refused capture Start' "$(block le 0x0A0D0D0A '00 00 00 00 01 00 00 00 FF FF FF FF FF FF FF FF')"
captured pcapng-of-another-link 1 'refused capture Link' "$(section le)$(interface le 105)$(packet le 0 "$one")"
says names-the-link-of-a-pcapng "dnp: capture: packets of link type 105, where 1 (Ethernet), 101 (raw IP), 0 (loopback), 113 or 276 (Linux's any) is read"
# classic captures of `any`
classic="D4 C3 B2 A1 02 00 04 00$(le 0 8) FF FF 00 00"
any="00 00 03 04 00 06 00 00 00 00 00 00 00 00 08 00 $one" data=($any)
captured any 0 "1 $line" "$classic$(le 113 4)$(le 0 8)$(le ${#data[@]} 4)$(le ${#data[@]} 4) $any"
any="08 00 00 00 00 00 00 01 00 01 00 06 00 00 00 00 00 00 00 00 $one" data=($any)
captured any-two 0 "1 $line" "$classic$(le 276 4)$(le 0 8)$(le ${#data[@]} 4)$(le ${#data[@]} 4) $any"
# what Wireshark's own programs make of a classic capture
if command -v editcap >/dev/null; then
    octets "$classic$(le 276 4)$(le 0 8)$(le ${#data[@]} 4)$(le ${#data[@]} 4) $any" >classic
    editcap -F pcapng classic newer
    got=0
    "$dnp" decode --pcap newer >out 2>err </dev/null || got=$?
    judge decodes-a-pcapng-of-editcap 0 "1 $line" "$got"
fi

# ---- hexadecimal
# reads NAME TEXT: the frame is read of it, in the given line, 1 without one
reads() { expect "reads-$1" 0 "${3:-1} $line" "$2" decode; }
reads c-array '0x05, 0x64, 0x05, 0xC0, 0X01, 0x00, 0x00, 0x04, 0xE9, 0x21,'
reads colons "05:64:05:c0:01:00:00:04:e9:21$lf"
reads dashes '05-64-05-C0-01-00-00-04-E9-21'
reads semicolons '05;64;05;C0;01;00;00;04;E9;21'
reads escapes '\x05\x64\x05\xc0\x01\x00\x00\x04\xe9\x21'
reads one-prefix '0x056405C001000004E921'
reads xxd '00000000: 0564 05c0 0100 0004 e921                 .d.......!'
reads hexdump "00000000  05 64 05 c0 01 00 00 04  e9 21                    |.d.......!|${lf}0000000a$lf"
reads wireshark '0000   05 64 05 c0 01 00 00 04 e9 21                     .d.......!'
reads of-eight "0000   05 64 05 c0 01 00 00 04                           05 64 de$lf""0010   e9 21$lf" 2
reads carriage-returns $'00000000  05 64 05 c0 01 00 00 04  e9 21  |.d.......!|\r\n0000000a\r\n'
# sixteen octets and the characters behind them, and the next line
expect reads-a-whole-line-of-a-dump 0 "1 $line${lf}2 $line" "00000000: 0564 05c0 0100 0004 e921 0564 05c0 0100  .d.......!.d....${lf}00000010: 0004 e921                                ...!" decode
# a word of digits is the end of a dump behind one of its lines alone
expect reads-a-word-of-zeros 1 '1 frame refused: Cut at octet 4' '00000000' decode
expect reads-no-octets-of-an-end 1 '1 frame refused: Cut at octet 2' "00000000  05 64${lf}00000002" decode
# what is no octet is refused as ever, in its column
wrong() { expect "refuses-$1" 1 "1 text refused: no hexadecimal digit in column $2" "$3" decode; }
wrong a-mark-in-an-octet 2 '0:5'
wrong a-prefix-in-an-octet 2 '1x05'
wrong a-point 3 '05.64'
wrong a-letter-in-a-dump 13 '00000000: 05g4'
wrong half-an-octet-of-a-dump 12 '00000000: 5'
wrong characters-without-a-place 33 '0564 05c0 0100 0004 e921        .d.......!'

# octets that are given as others than they are
echo '05 64 05 C0 01 00 00 04 E9 21' >text
expect refuses-hexadecimal-octets-for-a-capture 1 'refused capture Start' '' decode --pcap text
says says-that-they-are-hexadecimal-octets "dnp: text: the file doesn't begin as a capture
dnp: text: tip: it looks like hexadecimal octets, which 'dnp decode' reads from standard input"
printf '\x05\x64\x05\xC0\x01\x00\x00\x04\xE9\x21' >octets
got=0
"$dnp" decode <octets >out 2>err || got=$?
judge refuses-octets-for-hexadecimal-ones 1 '1 text refused: no hexadecimal digit in column 1' "$got"
says says-that-they-are-octets "dnp: standard input: tip: it looks like octets of frames, which '--raw' reads from standard input"
got=0
"$dnp" decode <capture >out 2>err || got=$?
tail -n 1 err >last && mv last err
says says-that-it-is-a-capture "dnp: standard input: tip: it looks like a capture, which '--pcap <FILE>' names"
