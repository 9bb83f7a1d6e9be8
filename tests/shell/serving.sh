#!/bin/bash
# The commands by which README.md and docs/network.md serve a master on another host are typed as they stand there, with a port that
# is free and with the plan of examples/. For another host stands another address of this machine than the usual one.
. "$(dirname "${BASH_SOURCE[0]}")/../expect.bash"
. "$top/tests/networks.bash"
serving=
trap '[ -z "$serving" ] || kill "$serving" 2>/dev/null; rm -rf "$room"' EXIT

mkdir here
ln -s "$dnp" here/dnp
PATH=$room/here:$PATH
cp "$top/examples/plan.toml" .
values='binary 0 0 02 - static
output 0 0 01 - static
iin 80 00 restart'

# shown DOCUMENT WORDS: the command between backticks that has these words, in one line
shown() { tr '\n' ' ' <"$top/$1" | grep -o "\`dnp outstation [^\`]*$2[^\`]*\`" | tr -d '\`'; }

# serves NAME COMMAND POLL..: the command serves a master at 127.0.0.2 that asks so
serves() {
    bash -c "exec $2" >served 2>log </dev/null &
    serving=$!
    listens "$port"
    expect "serves-another-host:$1" 0 "$values" '' poll "127.0.0.2:$port" "${@:3}"
    kill "$serving"
    wait "$serving" 2>/dev/null
    serving=
}

port=$(free)
command=$(shown README.md '--bind')
serves README.md "$(sed "s/FILE/plan.toml/; s/--station S/--station 0/; s/20000/$port/" <<<"$command")"
port=$(free)
awk '/^```/ { if (block ~ /^\[\[substation\]\]/) { printf "%s", block; exit } block = ""; next } { block = block $0 "\n" }' "$top/docs/network.md" |
    sed "s/20000/$port/" >network.toml
command=$(shown docs/network.md '--network network.toml')
serves docs/network.md "$command" --own 100 --peer 1
