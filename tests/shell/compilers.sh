#!/bin/bash
# The program as Rattle's own compiler makes it of the same proof, which `rt ci` leaves as dnp.by-rattle, does as the program by LLVM:
# over scripts, whose stores are databases in memory, and over stores in files, which sqlite3 then dumps. LLVM is known to compile
# some correct code wrongly. Where Rattle's compiler made no program, this is left out.
. "$(dirname "${BASH_SOURCE[0]}")/../expect.bash"
. "$top/tests/networks.bash"
trap 'gone; rm -rf "$room"' EXIT

other=${BY_RATTLE:-$program.by-rattle}
if [ ! -x "$other" ]; then
    echo "left out: Rattle's own compiler made no $(basename "$other")"
    exit 0
fi

# Scripts of examples/, whose reports were worked out by hand
for script in "$top"/examples/*.script; do
    name=${script##*/} && name=${name%.script}
    of=$top/examples/$name.toml
    [ -e "$of" ] || of=$top/examples/plan.toml
    got=0
    "$other" sim --plan "$of" <"$script" >out 2>err || got=$?
    judge "reports:$name" 0 "$(<"$top/examples/$name.report")" "$got"
done

# does PROGRAM FOLDER: what a program says and leaves there, where nobody answers, and what was left there by the first is opened again
does() (
    mkdir "$2" && cd "$2" || exit
    plan plan.toml 1 2
    for new in --new ''; do
        # shellcheck disable=SC2086
        "$1" centre --plan plan.toml --journal journal.db --controls above.db --port "$port" --issue '0 set16 0 1' $new
        echo "status $?"
        # shellcheck disable=SC2086
        "$1" concentrate --plan plan.toml --queue queue.db --controls below.db --port "$port" --below "$below" --every 100 --rounds 1 $new
        echo "status $?"
        for file in *.db; do echo "$file" && sqlite3 "$file" 'PRAGMA integrity_check' .dump; done
    done </dev/null
    for store in journal queue controls; do
        name=$store && [ "$store" != controls ] || name=book
        sqlite3 "rows-$store.db" <"$top/tests/files/$name.sql" >/dev/null
        "$1" rows "--$store" "rows-$store.db"
        echo "status $?"
    done
)
# untimed: without the time of a line, and which build it was that started
untimed() { sed -E 's/^[0-9]{4}-[0-9T:.-]+Z //; /^started: /d'; }
port=$(free) below=$(free)
if command -v sqlite3 >/dev/null; then
    does "$program" one 2>&1 | untimed >said
    does "$other" other 2>&1 | untimed >out
    : >err
    judge stores-in-files 0 "$(<said)" 0
    grep -c '^ok$' said >out
    judge stores-are-there 0 8 0
else
    echo "left out: there is no sqlite3 on this machine"
fi
