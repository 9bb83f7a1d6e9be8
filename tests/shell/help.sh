#!/bin/bash
# The examples of the help texts work with the plan of the repository.
. "$(dirname "${BASH_SOURCE[0]}")/../expect.bash"
. "$top/tests/networks.bash"

ln -s "$top/examples" examples
mkdir here
ln -s "$dnp" here/dnp
below=$(free) port=$(free)

# example COMMAND: the commands in the example of its help text, with ports that are free
example() {
    sed -n '/^EXAMPLE/,/^[A-DF-Z]/s/^    //p' "$top/crates/dnp/help/$1" | sed "s/\b20[01]00\b/$port/g; s/\b20010\b/$below/g"
}

# works NAME STDOUT COMMANDS: types the commands, which print that and end with 0. A line that ends in '&' begins a program, for
# whose port the next one waits. All end with the last command.
works() {
    local got=0
    sed -E 's/^(.*--port ([0-9]+).*)&$/\1 >\/dev\/null 2>\&1 \&\nlistens \2/' <<<"$3" >typed
    echo 'ended=$?; kill $(jobs -p) 2>/dev/null; wait; exit "$ended"' >>typed
    (PATH=$room/here:$PATH && . ./typed) >out 2>err </dev/null || got=$?
    judge "$1" 0 "$2" "$got"
}

for name in answer decode; do
    shown=$(sed -n '/^EXAMPLE/,/^[A-DF-Z]/p' "$top/crates/dnp/help/$name" | grep -E '^  [0-9]' | sed 's/^  //')
    works "works:$name" "$shown" "$(example $name)"
done
for name in sim loopback; do
    works "works:$name" "$(<"$top/examples/a_round.report")" "$(example $name)"
done
works works:check "$("$dnp" check --plan examples/plan.toml --network examples/network.toml)" "$(example check)"
present=$'binary 0 0 02 - static\noutput 0 0 01 - static\niin 80 00 restart'
works works:outstation "$present" "$(example outstation)"
works works:poll "$present"$'\nselect 0 SUCCESS\noperate 0 SUCCESS' "$(example poll)"
# (the centre's example is that of the concentrator's)
works works:concentrate-and-centre 'rows 0' "$(example concentrate) &"$'\n'"$(example centre)"
# (over the stores that these two made, with 41 events in the journal; a reader that follows is ended)
python3 -c 'import sqlite3
store = sqlite3.connect("journal.db")
store.executemany("INSERT INTO journal (kind, point, flags, value, time) VALUES (0, 100, 1, 1, ?)", [(it,) for it in range(41)])
store.commit()'
while read -r lines command; do
    got=0 limit=600
    [[ $command != *' --follow'* ]] || limit=4
    (PATH=$room/here:$PATH && timeout "$limit" $command) >printed 2>err </dev/null || got=$?
    [ "$limit:$got" != 4:124 ] || got=0
    wc -l <printed >out
    judge "works:$command" 0 "$lines" "$got"
done < <(sed -n '/^EXAMPLES/,/^[A-DF-Z]/s/^    //p' "$top/crates/dnp/help/rows" | paste -d ' ' <(printf '%s\n' 41 1 0 0) -)
