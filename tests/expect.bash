# What the files of tests/shell share. Each case prints one line, 'ok NAME' or 'FAILED NAME', and where it
# failed, what was expected and what came, of long texts the part where they differ. The program runs in a folder of its own,
# outside the repository; with DNP=FILE it is another build of it.
set -u
top=$(cd "$(dirname "${BASH_SOURCE[0]}")/.." && pwd)
. "$top/tests/scale.bash"
room=$(mktemp -d)
trap 'rm -rf "$room"' EXIT
cd "$room" || exit 1
# (built once here, and not by each case in turn)
"$dnp" --help </dev/null >/dev/null || { echo "FAILED to-build-dnp" && exit 1; }

# part FILE FROM: the octets of a file from a place on, 1 for its begin, at most so many that a reader sees what differs
part() {
    local size
    size=$(wc -c <"$1")
    printf '%q' "$(tail -c "+$2" "$1" | head -c 1000)"
    [ "$size" -le 1000 ] || printf ' (from octet %s of %s)' "$2" "$size"
}

# differs FILE OTHER: a place shortly before the first octet in which they differ; 1 where none of them is long
differs() {
    local at=1
    if [ "$(cat "$1" "$2" | wc -c)" -gt 2000 ]; then
        at=$(cmp "$1" "$2" 2>&1 | sed -En 's/.* byte ([0-9]+),.*/\1/p')
        at=$((${at:-1} > 200 ? at - 200 : 1))
    fi
    echo "$at"
}

# judge NAME STATUS STDOUT GOT: holds the exit status GOT and the file `out` against what was expected. A
# STDOUT that is not empty stands without its last line feed.
judge() {
    local at
    printf '%s' "${3:+$3$'\n'}" >want
    if [ "$4" = "$2" ] && cmp -s want out; then
        echo "ok $1"
        return
    fi
    at=$(differs want out)
    echo "FAILED $1"
    printf '    expected  status %s, standard output %s\n' "$2" "$(part want "$at")"
    printf '    came      status %s, standard output %s\n' "$4" "$(part out "$at")"
    printf '    standard error: %s\n' "$(head -c 500 err)"
}

# expect NAME STATUS STDOUT INPUT ARGS..: runs `dnp ARGS..` on INPUT.
expect() {
    local name=$1 status=$2 stdout=$3 input=$4 got=0
    shift 4
    printf '%s' "$input" | "$dnp" "$@" >out 2>err || got=$?
    judge "$name" "$status" "$stdout" "$got"
}

# says NAME STDERR: holds standard error of the last case against what was expected, a line without its line feed.
says() {
    printf '%s' "${2:+$2$'\n'}" >want
    if cmp -s want err; then
        echo "ok $1"
        return
    fi
    echo "FAILED $1"
    printf '    expected on standard error  %s\n    came                        %s\n' "$(part want 1)" "$(part err 1)"
}

# logs NAME STDERR: the same of a program that begins its log with which build it is. Each line has the time in UTC, which is left away
# here, and so are lines that say where it listens; a time within a line is TIME, and how long something took is LONG.
started="started: $("$dnp" --version)"
utc='[0-9]{4}-[0-9]{2}-[0-9]{2}T[0-9]{2}:[0-9]{2}:[0-9]{2}\.[0-9]{3}Z'
logs() {
    local first
    first=$(head -n 1 err)
    if [[ $first =~ ^$utc\ (.*)$ && ${BASH_REMATCH[1]} = "$started" ]]; then
        tail -n +2 err >lines
        sed -E "s/^$utc //; t timed; s/^/(without a time) /; :timed; /^listening on .* as [0-9]+ for master [0-9]+$/d
            s/$utc/TIME/; s/back after [0-9]+ m?s /back after LONG /" lines >err
        says "$@"
    else
        echo "FAILED $1"
        printf '    expected first on standard error  TIME %q\n    came                              %q\n' "$started" "$first"
    fi
}

# Frames of tests, whose check words are made here, bit by bit.
# check OCTETS..: a space and their check word, the low octet first
check() {
    local word=0 octet bit
    for octet; do
        word=$((word ^ 16#$octet))
        for bit in {1..8}; do
            word=$((word & 1 ? word >> 1 ^ 0xA6BC : word >> 1))
        done
    done
    printf ' %02X %02X' $((~word & 255)) $((~word >> 8 & 255))
}
# frame CONTROL DESTINATION SOURCE OCTETS..: the line of a frame with these user data
frame() {
    local header=(05 64 "$(printf '%02X' $(($# + 2)))" "$1" "$2" 00 "$3" 00) block
    shift 3
    printf '%s' "${header[*]}$(check "${header[@]}")"
    while (($#)); do
        block=("${@:1:16}")
        printf ' %s' "${block[*]}$(check "${block[@]}")"
        shift ${#block[@]}
    done
}
