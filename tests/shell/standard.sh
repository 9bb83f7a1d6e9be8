#!/bin/bash
# `dnp decode` beyond the profile of the stations: functions, objects and captures of any DNP3 device. What is expected is worked by hand
# from IEEE Std 1815-2012; last comes tshark, over the whole of it.
. "$(dirname "${BASH_SOURCE[0]}")/../expect.bash"

lf=$'\n'
# decodes NAME STATUS LINES INPUT WORDS..: what `dnp decode` prints
decodes() {
    local name=$1 status=$2 lines=$3 input=$4
    shift 4
    expect "decodes-$name" "$status" "$lines" "$input" decode "$@"
}
# asks NAME STATUS LINES OCTETS, answers NAME STATUS LINES OCTETS: what is printed of a request, or of a response, below its segment
asks() { below "$1" "$2" "$3" '2>10 C4' C4 0A 02 "$4"; }
answers() { below "$1" "$2" "$3" '10>2 44' 44 02 0A "$4"; }
below() {
    local octets=($8)
    decodes "$1" "$2" "1 $4 UNCONFIRMED_USER_DATA $((${#octets[@]} + 1)) octets, words good
1   transport FIR FIN 0
$3" "$(frame "$5" "$6" "$7" C0 $8)$lf"
}

# ---- functions
asks a-cold-restart 0 '1   request seq 0 fir fin COLD_RESTART, beyond the profile' 'C0 0D'
asks a-file-that-is-opened 0 '1   request seq 3 fir fin con OPEN_FILE, beyond the profile
1     70.3 x1 file control, file command, beyond the profile
1     70.3 x1: octets 1A 00 05, beyond the profile' 'E3 19 46 03 5B 01 03 00 1A 00 05'
answers an-authenticate-resp 0 '1   response seq 0 fir fin, iin 80 01 DEVICE_RESTART NO_FUNC_CODE_SUPPORT, AUTHENTICATE_RESP, beyond the profile
1     120.1 x1 authentication, challenge, beyond the profile
1     120.1 x1: octets 01 02, beyond the profile' 'C0 83 80 01 78 01 5B 01 02 00 01 02'
answers an-authenticate-resp-without-indications 1 '1   fragment refused: Short at octet 3' 'C0 83 80'
asks an-assigned-class 0 '1   request seq 0 fir fin ASSIGN_CLASS, beyond the profile
1     60.2 all class objects, class 1 data, beyond the profile
1     30.0 0..3 analog input, any variation, beyond the profile' 'C0 16 3C 02 06 1E 00 00 00 03'
# the time of FREEZE_AT_TIME is there, the counters are named
asks a-freeze-at-a-time 0 '1   request seq 0 fir fin FREEZE_AT_TIME, beyond the profile
1     50.2 x1 time and date, absolute time and interval, beyond the profile
1     50.2 x1: octets E8 03 00 00 00 00 60 EA 00 00, beyond the profile
1     20.0 all counter, any variation, beyond the profile' 'C0 0B 32 02 07 01 E8 03 00 00 00 00 60 EA 00 00 14 00 06'
asks a-function-that-is-none 1 '1   fragment refused: FunctionUnknown at octet 1' 'C0 22'

# ---- objects, and what follows them
said='1   response seq 0 fir fin, iin 00 00'
answers floats 0 "$said
1     30.5 0..1 analog input, single-precision with flag, beyond the profile
1     30.5 0..1: 0 octets 01 00 00 C0 3F, beyond the profile
1     30.5 0..1: 1 octets 01 00 00 00 40, beyond the profile
1     1.2 7..7: 7 = 1 flags 01 ONLINE" 'C0 81 00 00 1E 05 00 00 01 01 00 00 C0 3F 01 00 00 00 40 01 02 00 07 07 81'
answers double-bits 0 "$said
1     3.1 4..7 double-bit binary input, packed format, beyond the profile
1     3.1 4..7: 4 = 0, beyond the profile
1     3.1 4..7: 5 = 1, beyond the profile
1     3.1 4..7: 6 = 2, beyond the profile
1     3.1 4..7: 7 = 3, beyond the profile
1     10.1 0..8 binary output, packed format, beyond the profile
1     10.1 0..8: 0 = 1, beyond the profile
1     10.1 0..8: 1 = 0, beyond the profile
1     10.1 0..8: 2 = 0, beyond the profile
1     10.1 0..8: 3 = 0, beyond the profile
1     10.1 0..8: 4 = 0, beyond the profile
1     10.1 0..8: 5 = 0, beyond the profile
1     10.1 0..8: 6 = 0, beyond the profile
1     10.1 0..8: 7 = 0, beyond the profile
1     10.1 0..8: 8 = 1, beyond the profile
1     30.2 0..0: 0 = 5 flags 01 ONLINE" 'C0 81 00 00 03 01 00 04 07 E4 0A 01 00 00 08 01 01 1E 02 00 00 00 01 05 00'
answers strings 0 "$said
1     111.4 x1 octet string event, as many octets as the variation, beyond the profile
1     111.4 x1: 258 octets 61 62 63 64, beyond the profile
1     22.1 x1: 3 = 9 flags 01 ONLINE" 'C0 81 00 00 6F 04 28 01 00 02 01 61 62 63 64 16 01 17 01 03 01 09 00 00 00'
# relative times after a common time that stands before what the profile lacks, and after one behind it
answers relative-times 0 "$said
1     51.1 x1: 1970-01-01T00:00:10.000Z
1     4.3 x1 double-bit binary input event, with relative time, beyond the profile
1     4.3 x1: 1 octets 41 01 00, beyond the profile
1     2.3 x1: 3 = 1 flags 01 ONLINE at 1970-01-01T00:00:11.000Z
1     51.1 x1: 1970-01-01T00:00:20.000Z
1     2.3 x1: 3 = 0 flags 01 ONLINE at 1970-01-01T00:00:20.002Z" 'C0 81 00 00 33 01 07 01 10 27 00 00 00 00 04 03 17 01 01 41 01 00 02 03 17 01 03 81 E8 03 33 01 07 01 20 4E 00 00 00 00 02 03 17 01 03 01 02 00'
asks indexes-that-are-read 0 '1   request seq 0 fir fin READ
1     1.2 x2 binary input, with flags, beyond the profile
1     1.2 x2: 3, beyond the profile
1     1.2 x2: 9, beyond the profile
1     60.2 all' 'C0 01 01 02 17 02 03 09 3C 02 06'
asks device-attributes 0 '1   request seq 0 fir fin READ
1     0.252 0..0 device attribute, manufacturer'"'"'s name, beyond the profile
1     0.254 0..0 device attribute, all attributes, beyond the profile' 'C0 01 00 FC 00 00 00 00 FE 00 00 00'
# in an aggressive request objects of authentication are there
asks an-aggressive-read 0 '1   request seq 0 fir fin READ
1     120.3 x1 authentication, aggressive mode request, beyond the profile
1     120.3 x1: octets 01 00 00 00 02 00, beyond the profile
1     60.2 all
1     120.9 x1 authentication, message authentication code, beyond the profile
1     120.9 x1: octets AA BB, beyond the profile' 'C0 01 78 03 07 01 01 00 00 00 02 00 3C 02 06 78 09 5B 01 02 00 AA BB'

# ---- what is refused
answers an-object-without-a-size 1 "$said
1     30.5 0..0 analog input, single-precision with flag, beyond the profile
1     30.5 0..0: 0 octets 01 00 00 C0 3F, beyond the profile
1   fragment refused: SizeUnknown at octet 14" 'C0 81 00 00 1E 05 00 00 00 01 00 00 C0 3F 46 03 07 01'
answers an-object-that-is-none 1 "$said
1   fragment refused: ObjectUnknown at octet 4" 'C0 81 00 00 63 01 00 00 00 01'
answers a-qualifier-that-is-none 1 "$said
1   fragment refused: QualifierUnknown at octet 4" 'C0 81 00 00 1E 02 11 00 00 00 01'
answers objects-that-are-cut 1 "$said
1   fragment refused: ObjectsCut at octet 4" 'C0 81 00 00 1E 05 00 00 01 01 00 00 C0 3F 01 00 00 00'
answers a-backward-range 1 "$said
1   fragment refused: RangeBackward at octet 4" 'C0 81 00 00 1E 05 00 01 00'
answers a-cut-header 1 "$said
1   fragment refused: HeaderCut at octet 4" 'C0 81 00 00 1E 05 00 01'

# ---- JSON
decodes json-beyond-the-profile 1 '{"at":1,"layer":"frame","source":10,"dest":2,"control":"44","function":"UNCONFIRMED_USER_DATA","octets":25}
{"at":1,"layer":"transport","fir":true,"fin":true,"number":0,"octets":24}
{"at":1,"layer":"response","seq":0,"fir":true,"fin":true,"con":false,"uns":false,"function":"AUTHENTICATE_RESP","iin":["80","00"],"profile":false}
{"at":1,"layer":"header","group":32,"variation":7,"range":"indexed","count":1,"octets":12,"name":"analog input event, single-precision with time","profile":false}
{"at":1,"layer":"object","index":3,"octets":"01 00 00 C0 3F E8 03 00 00 00 00","profile":false}
{"at":1,"layer":"fragment","refused":"ObjectUnknown","octet":20}
{"at":2,"layer":"frame","source":10,"dest":2,"control":"44","function":"UNCONFIRMED_USER_DATA","octets":17}
{"at":2,"layer":"transport","fir":true,"fin":true,"number":0,"octets":16}
{"at":2,"layer":"response","seq":0,"fir":true,"fin":true,"con":false,"uns":false,"function":"RESPONSE","iin":["00","00"]}
{"at":2,"layer":"header","group":3,"variation":1,"range":"span","first":4,"last":4,"octets":1,"name":"double-bit binary input, packed format","profile":false}
{"at":2,"layer":"object","index":4,"value":2,"profile":false}
{"at":2,"layer":"header","group":1,"variation":2,"range":"span","first":7,"last":7,"octets":1}
{"at":2,"layer":"row","kind":"binary","index":7,"value":1,"flags":"01","time":null}' \
    "$(frame 44 02 0A C0 C0 83 80 00 20 07 17 01 03 01 00 00 C0 3F E8 03 00 00 00 00 63 01 00 00)$lf$(frame 44 02 0A C0 C0 81 00 00 03 01 00 04 04 02 01 02 00 07 07 81)$lf" --json

# ---- tshark
if command -v tshark >/dev/null; then
    DNP=$dnp "$top/tests/decode/corpus.py"
else
    echo "(tshark isn't there: the corpus is left out)"
fi
