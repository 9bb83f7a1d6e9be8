# What the tests of documents' commands share, beside expect.bash. A document shows a command in a fenced block, behind `$ `, with what
# it prints below it. A note behind `<- ` is the document's own, and a line '...' stands for the rest of what is printed.

# blocks NAME FILE: the commands of the blocks of the file that begin with one, each as a file NAME-NN.block: the command in its first
# line, in one also where the document has it in several, which end with a backslash, and what it prints
blocks() {
    awk -v room="$room" -v name="$1" '
        /^```/ { inside = !inside; shows = 0; first = 1; file = ""; next }
        inside && first { shows = /^\$ /; first = 0 }
        inside && shows && /^\$ / { if (file) close(file); file = room "/" sprintf("%s-%02d.block", name, ++n); sub(/^\$ /, ""); goes_on = 1; command = "" }
        inside && shows && goes_on {
            sub(/^ +/, ""); command = command $0
            goes_on = sub(/ *\\$/, " ", command)
            if (!goes_on) print command > file
            next
        }
        inside && shows { sub(/ +<- .*$/, ""); print > file }' "$2"
}

# holds_rest WANT GOT: what came is what was wanted, of which a last line '...' stands for the rest
holds_rest() {
    # (a terminal doesn't show a carriage return at the end of a line)
    sed -i 's/\r$//' "$2"
    if [ "$(tail -n 1 "$1")" = ... ]; then
        sed -i '$d' "$1"
        head -n "$(wc -l <"$1")" "$2" >"$2.part" && mv "$2.part" "$2"
    fi
    cmp -s "$1" "$2"
}

# prints_block BLOCK FOLDER PATH: its command prints in that folder what stands below it, octet for octet. The program `dnp` is the
# first one of PATH, or that of the folder.
prints_block() {
    local name command
    name=$(basename "$1" .block) command=$(head -n 1 "$1")
    tail -n +2 "$1" >want
    (cd "$2" && PATH=$3 bash -c "$command") </dev/null >out 2>&1
    if holds_rest want out; then
        echo "ok $name: $command"
    else
        echo "FAILED $name: $command"
        diff want out | sed 's/^/    /' | head -n 20
    fi
}

# plain: standard input without what differs from run to run: times, a master's port, which build of the program it is, how long
# something took, and what a shell says of a job that was killed
plain() {
    sed -E "/: line [0-9]+: +[0-9]+ (Killed|Terminated) /d; s/[0-9]{4}-[0-9]{2}-[0-9]{2}T[0-9]{2}:[0-9]{2}:[0-9]{2}\.[0-9]{3}Z/TIME/g
        s/127\.0\.0\.1:[0-9]+ (connected|ended|centre|frames|octets)/MASTER \1/; s/started: dnp .*/started: BUILD/
        s/back after [0-9]+ m?s and [0-9]+ tr(y|ies)/back after LONG/; s/ still lost, / lost, /"
}

# shows_in_turn NAME FOLDER PATH: the commands of the document's blocks, typed one after the other in one shell, print what stands
# below them. A command that only looks (`cat`, `grep`, `head`, `tail`, `dnp rows`) is tried again for a minute, of a checked program for four, since a reader waits for the others.
# What the commands began is ended at the end.
shows_in_turn() (
    each='' got='' shown='' tries=0
    cd "$2" && PATH=$3
    for each in "$room/$1"-*.block; do
        shown=$(head -n 1 "$each") tries=1 got=FAILED
        [[ $shown != @(cat|grep|head|tail|dnp rows)\ * ]] || tries=$((120 * slower))
        while [ "$got" = FAILED ] && ((tries-- > 0)); do
            eval "$shown" </dev/null >"$room/$1.out" 2>&1
            tail -n +2 "$each" | plain >"$room/$1.want"
            plain <"$room/$1.out" >"$room/$1.came"
            if holds_rest "$room/$1.want" "$room/$1.came"; then got=ok; elif ((tries)); then sleep 0.5; fi
        done
        echo "$got $(basename "$each" .block): $shown"
        [ "$got" = ok ] || diff "$room/$1.want" "$room/$1.came" | sed 's/^/    /' | head -n 20
    done
    kill $(jobs -p)
    wait
) 2>/dev/null
