#!/bin/bash
# The commands of docs/operating.md work: those behind `$ ` print what stands below them; the first runs of the services make the
# stores, over which the units then run; and rows go to a broker and a database, which stand-ins take the place of.
. "$(dirname "${BASH_SOURCE[0]}")/../expect.bash"
. "$top/tests/networks.bash"
began=()
trap 'kill "${began[@]}" 2>/dev/null; rm -rf "$room"' EXIT

document=$top/docs/operating.md
ln -s "$top/examples" examples
mkdir here network
ln -s "$dnp" here/dnp
PATH=$room/here:$PATH
below=$(free) port=$(free) port2=$(free)

# on_free_ports: standard input with ports that are free
on_free_ports() { sed -E "s/\b20100\b/$port/g; s/\b20101\b/$port2/g; s/\b200[01]0\b/$below/g"; }

# block TEXT: the block of the document that has this text, with lines that end in a backslash joined
block() {
    awk -v text="$1" '/^```/ { if (inside && index(block, text)) printf "%s", block; inside = !inside; block = ""; next }
        inside { block = block $0 "\n" }' "$document" | sed -E ':more; /\\$/{N; s/ *\\\n */ /; b more}' | on_free_ports
}

# begins COMMAND: begins a program, and waits until it listens
begins() {
    bash -c "exec ${1% &}" >/dev/null 2>&1 </dev/null &
    began+=($!)
    listens "$(sed -E 's/.*--port ([0-9]+).*/\1/' <<<"$1")"
}

# prints COMMAND WANTED: it prints that; one that only looks at rows is tried again, since a reader waits for the others
prints() {
    local tries=1
    [[ $1 != 'dnp rows '* ]] || tries=100
    while ((tries-- > 0)); do
        bash -c "$1" >out 2>err </dev/null
        # (a line '...' stands for the rest)
        if [[ $2 = *"$lf..." ]]; then
            { head -n "$(($(wc -l <<<"$2") - 1))" out && echo ...; } >part
            mv part out
        fi
        [ "$(cat out)" != "$2" ] || break
        sleep 0.1
    done
    if [ "$(cat out)" = "$2" ]; then echo "ok prints:$1"; else echo "FAILED prints:$1" && diff <(echo "$2") out; fi
}

# types: the commands of a block, each with what stands below it
types() {
    local command='' wanted='' line
    while IFS= read -r line; do
        if [[ $line != '$ '* ]]; then
            wanted+=${wanted:+$lf}$line
            continue
        fi
        [ -z "$command" ] || prints "$command" "$wanted"
        command=${line#??} wanted=''
        [[ $command != *' &' ]] || { begins "$command" && command=''; }
    done
    prints "$command" "$wanted"
}
types < <(block '--forever --new &')
types < <(block 'dnp check')
types < <(block "--issue '0 latch-on 0'")
grep '^\$ ' "$document" | grep -v 'dnp \(outstation\|check\|concentrate\|centre\|rows\) ' | sed 's/^/FAILED not-typed: /'
kill "${began[@]}"
wait "${began[@]}" 2>/dev/null
began=()

# The first runs of the services: the whole block is typed, over the folder `system` in place of `/`, and with nobody at the
# substation's port. Debian's useradd and systemctl judge their words, and change that folder alone; what `sudo -u dnp` runs is run
# by whoever runs this, and `journalctl` is asked for a unit that was enabled.
below=$(free) port=$(free) port2=$(free)
system=$room/system
mkdir -p "$system"/{etc/dnp,etc/systemd/system,usr/local/share/doc/dnp,usr/local/bin} "$room/stand-ins"
cp "$top/examples/plan.toml" "$system/etc/dnp"
ln -s "$top/examples" "$system/usr/local/share/doc/dnp/examples"
# (a unit's program has to be there)
ln -s "$dnp" "$system/usr/local/bin/dnp"
printf 'root:x:0:0:root:/root:/bin/bash\n' >"$system/etc/passwd"
printf 'root:x:0:\n' >"$system/etc/group"
# stands_in NAME LINES: a program of these lines, which the block finds first
stands_in() { printf '#!/bin/bash\n%s\n' "$2" >"$room/stand-ins/$1" && chmod +x "$room/stand-ins/$1"; }
stands_in sudo '[ "$1 $2" = "-u dnp" ] && exec "${@:3}"; echo "sudo: $*" >&2; exit 1'
if [ "$(id -u)" = 0 ] && useradd=$(PATH=$PATH:/usr/sbin command -v useradd); then
    stands_in useradd "mkdir -p '$system/var/lib' && exec '$useradd' --prefix '$system' \"\$@\""
else
    echo 'left out: operating:useradd, which is of root alone'
    stands_in useradd "mkdir -p '$system/var/lib/dnp' && echo dnp:x:999:999::/var/lib/dnp:/bin/sh >>'$system/etc/passwd'"
fi
# (--now starts the units, which needs a running systemd)
if systemctl=$(command -v systemctl); then
    stands_in systemctl "[ \"\$2\" = --now ] && exec '$systemctl' --root='$system' \"\$1\" \"\${@:3}\""
else
    echo 'left out: operating:systemctl, which is not on this machine'
    stands_in systemctl "for unit in \"\${@:3}\"; do ln -s . '$system/etc/systemd/system/'\$unit; done"
fi
stands_in journalctl "[ \"\$1\" = -u ] && find '$system/etc/systemd' -name \"\$2*\" | grep -q ."
PATH=$room/stand-ins:$PATH
while IFS= read -r command; do
    got=0
    eval "$command" >"$room/out" 2>"$room/err" </dev/null || got=$?
    name=${command//"$system"/}
    (cd "$room" && judge "types:${name%% --*}" 0 "$(grep -o 'round 1 rows 0' out)" "$got")
done < <(block 'useradd' | sed -E "/^useradd/!s#(^| )/(var|etc|usr)/#\1$system/\2/#g")
for file in queue below journal above journal2 above2; do
    [ -s "$file.db" ] && echo "ok first-run-makes:$file.db" || echo "FAILED first-run-makes:$file.db"
done
grep -q '^dnp:.*:/var/lib/dnp:' "$system/etc/passwd" && echo ok makes-the-user || echo FAILED makes-the-user
enabled=$(find "$system/etc/systemd/system" -path '*.wants/*' -name '*.service' -printf '%f\n' | sort | paste -sd ' ')
[ -z "$systemctl" ] || [ "$enabled" = 'dnp-centre.service dnp-centre2.service dnp-concentrate.service' ] &&
    echo ok enables-the-units || echo "FAILED enables-the-units: $enabled"

# command_of UNIT: its command, over these stores and on ports that are free
command_of() { sed -n 's|^ExecStart=/usr/local/bin/||p' "$top/examples/services/dnp-$1.service" | sed 's|/etc/dnp|examples|; s/0\.0\.0\.0/127.0.0.1/' | on_free_ports; }

# Each unit is one by systemd, and its command runs over these stores
ln -s "$top/examples" examples
for unit in outstation concentrate centre centre2; do
    file=$top/examples/services/dnp-$unit.service
    sed "s|/usr/local/bin/dnp|$room/here/dnp|; /^User=/d" "$file" >"dnp-$unit.service"
    if command -v systemd-analyze >/dev/null; then
        systemd-analyze verify "./dnp-$unit.service" >out 2>&1
        judge "is-a-unit:$unit" 0 '' $?
    fi
    command=$(command_of "$unit")
    if [[ $unit = centre* ]]; then
        prints "${command/--forever/--polls 1}" 'rows 0'
    else
        begins "$command"
        kill -0 "${began[-1]}" && echo "ok runs:$unit" || echo "FAILED runs:$unit"
    fi
done

# A service is ended and begun again as an operator types it: in place of systemd a program does so by the signal TERM, and by the
# command of the unit
kill "${began[@]}"
wait "${began[@]}" 2>/dev/null
began=()
stands_in systemctl "case \"\$*\" in
'start dnp-concentrate') $(command_of concentrate) >/dev/null 2>&1 </dev/null & echo \$! >'$room/service' ;;
'stop dnp-concentrate') kill \"\$(cat '$room/service')\" ;;
*) exit 1 ;;
esac"
# operates VERB: types what the document has of it
operates() {
    local words
    words=$(grep -o "systemctl $1" "$document" | head -n 1)
    bash -c "$words dnp-concentrate" >out 2>err </dev/null && echo "ok types:$words" || echo "FAILED types:$words"
}
operates start
listens "$port"
operates stop
for ((try = 0; try < 100; try++)); do
    kill -0 "$(cat "$room/service")" 2>/dev/null || break
    sleep 0.05
done
((try < 100)) && echo ok ends-at-once || echo FAILED ends-at-once
operates start
began+=("$(cat "$room/service")")
listens "$port"
command=$(command_of centre)
prints "${command/--forever/--polls 1}" 'rows 0'

# Rows to a broker and to a database
cd "$room" || exit 1
cat >here/mosquitto_pub <<'END'
#!/bin/bash
echo "$*" >>published
cat >>published
END
cat >here/psql <<'END'
#!/bin/bash
case "$*" in
-Atc*) echo 1 ;;
*copy*) cat >>copied ;;
*) echo "$2" >created ;;
esac
END
chmod +x here/mosquitto_pub here/psql
python3 - journal.db <<'END'
import sqlite3, sys
store = sqlite3.connect(sys.argv[1])
rows = [(0, 100, 1, 1, 1000), (0, 100, 1, 0, None), (2, 107, 1, -5, None)]
store.executemany("INSERT INTO journal (kind, point, flags, value, time) VALUES (?, ?, ?, ?, ?)", rows)
store.commit()
END

# (as it is looked at while no program has it)
bash -c "$(grep -o "sqlite3 journal.db '[^']*'" "$document")" >out 2>err </dev/null
judge looks-at-the-rows 0 $'1|0|100|1|1|1000\n2|0|100|1|0|\n3|2|107|1|-5|' $?
block mosquitto_pub >typed
set -m
bash typed 2>err </dev/null &
publishing=$!
set +m
for ((try = 0; try < 100 * slower; try++)); do
    [ "$(cat published 2>/dev/null | wc -l)" -lt 4 ] || break
    sleep 0.05
done
kill -- "-$publishing"
wait "$publishing" 2>/dev/null
{ echo '-h broker.example -t dnp/events -q 1 -l' && "$dnp" rows --journal journal.db --json; } >want
cmp -s want published && echo ok takes-rows-to-a-broker || { echo FAILED takes-rows-to-a-broker && diff want published; }

# The same over Debian's mosquitto, where it is here: a broker on a port of its own takes the place of broker.example
broker=$(PATH=$PATH:/usr/sbin command -v mosquitto)
if [ -z "$broker" ] || [ ! -x /usr/bin/mosquitto_pub ]; then
    echo 'left out: operating:mosquitto, which is not on this machine'
else
    broker_port=$(free)
    printf 'listener %s 127.0.0.1\nallow_anonymous true\n' "$broker_port" >mosquitto.conf
    "$broker" -c mosquitto.conf >broker.log 2>&1 </dev/null &
    began+=("$!")
    printf '#!/bin/bash\n[ "$1 $2" = "-h broker.example" ] && exec /usr/bin/mosquitto_pub -h 127.0.0.1 -p %s "${@:3}"\n' "$broker_port" >here/mosquitto_pub
    for ((try = 0; try < 100 * slower; try++)); do
        mosquitto_sub -h 127.0.0.1 -p "$broker_port" -t dnp/events -q 1 -C 3 -W $((20 * slower)) >received 2>err </dev/null &
        began+=("$!")
        sleep 0.2
        kill -0 "$!" 2>/dev/null && break
    done
    set -m
    bash typed 2>err </dev/null &
    publishing=$!
    set +m
    wait "${began[-1]}"
    kill -- "-$publishing"
    wait "$publishing" 2>/dev/null
    "$dnp" rows --journal journal.db --json >want
    cmp -s want received && echo ok a-broker-has-the-rows || { echo FAILED a-broker-has-the-rows && diff want received; }
fi

block 'psql -c' >typed
bash typed 2>err </dev/null
"$dnp" rows --journal journal.db --csv --after 1 >want
[ "$(wc -l <copied)" = 3 ] && cmp -s want copied && grep -q 'CREATE TABLE events' created &&
    echo ok takes-rows-to-a-database || { echo FAILED takes-rows-to-a-database && diff want copied; }
# (its columns are those of the header)
columns=$(tr '\n' ' ' <created | sed -E 's/.*events \((.*)\).*/\1/; s/, +/\n/g' | cut -d ' ' -f 1 | paste -sd ,)
[ "$columns" = "$(head -n 1 copied | tr -d '\r')" ] && echo ok makes-a-table-for-the-columns || echo "FAILED makes-a-table-for-the-columns: $columns"

# The same over PostgreSQL itself, where Debian's is here: the table is made, the rows are in it, and the timer's commands add
# those that came since, and none twice
server=$(ls -d /usr/lib/postgresql/*/bin 2>/dev/null | tail -n 1)
if [ -z "$server" ] || [ "$(id -u)" != 0 ]; then
    echo 'left out: operating:postgresql, which is not on this machine, or needs root to run as nobody'
    exit
fi
as_nobody() { setpriv --reuid 65534 --regid 65534 --clear-groups "$@" >out 2>err </dev/null; }
rm here/psql
chmod 755 "$room"
mkdir database && chown 65534:65534 database
export PGHOST=$room/database PGUSER=postgres PGDATABASE=postgres PGTZ=UTC
as_nobody "$server/initdb" -D database/data -A trust -U postgres -E UTF8 --no-sync &&
    as_nobody "$server/pg_ctl" -D database/data -l database/log -w -o "-k $PGHOST -c listen_addresses= -c fsync=off" start || echo 'FAILED starts-a-database'
trap 'as_nobody "$server/pg_ctl" -D database/data -m immediate stop; kill "${began[@]}" 2>/dev/null; rm -rf "$room"' EXIT
bash typed >out 2>err </dev/null
sed -n '/^last=/,$p' typed >again
python3 -c 'import sqlite3; store = sqlite3.connect("journal.db"); store.execute("INSERT INTO journal (kind, point, flags, value, time) VALUES (1, 3, 1, 7, 2001)"); store.commit()'
bash again >>out 2>>err </dev/null
bash again >>out 2>>err </dev/null
"$dnp" rows --journal journal.db --csv | tail -n +2 | tr -d '\r' | cut -d , -f 1-6 >want
psql -AtF , -c 'SELECT id, kind, index, value, flags, time FROM events ORDER BY id' >came
cmp -s want came && echo ok keeps-rows-in-a-database || { echo FAILED keeps-rows-in-a-database && diff want came && cat err; }
apart=$(psql -Atc 'SELECT count(*) FROM events WHERE utc IS DISTINCT FROM to_timestamp(time / 1000.0)')
[ "$apart" = 0 ] && echo ok keeps-the-times-of-rows || echo "FAILED keeps-the-times-of-rows: $apart"
