#!/bin/bash
# The manual page and the completions are those that the help texts make, and complete what they should.
top=$(cd "$(dirname "${BASH_SOURCE[0]}")/../.." && pwd)
"$top/tools/texts" --check

. "$top/share/dnp.bash"
# completes NAME WANTED WORDS..: what may stand for the last of these words
completes() {
    local name=$1 wanted=$2
    shift 2
    COMP_WORDS=(dnp "$@") COMP_CWORD=$# COMPREPLY=()
    _dnp
    if [ "${COMPREPLY[*]}" = "$wanted" ]; then
        echo "ok $name"
    else
        printf 'FAILED %s\n    wanted %s\n    came   %s\n' "$name" "$wanted" "${COMPREPLY[*]}"
    fi
}
completes completes-a-command 'sim' s
completes completes-a-limit '--limit' sim --l
completes completes-options '--plan --station --network --port --bind --connections --forever --idle --replay --repeat --verbose --help --version' outstation ''
completes completes-the-one-option '--own' answer --o
completes completes-the-options-of-sim '--plan --limit --trace --chart --capture --json --plain --hours --seed --rate --faults --picture --trace-from --network --help --version' sim ''
completes completes-the-ports-of-both-centres '--port --port2' concentrate --port
completes completes-no-number '' outstation --port ''
completes completes-the-options-of-check '--plan --network --csv --json --help --version' check ''
completes completes-help 'answer centre check concentrate decode loopback outstation poll rows sim' help ''
