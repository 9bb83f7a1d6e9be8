# What the tests of `dnp outstation` share, beside expect.bash: a plan, the program that serves it, and the master that talks to it.
master=$top/tests/shell/master.py
port=$(python3 -c 'import socket; s = socket.socket(); s.bind(("", 0)); print(s.getsockname()[1])')

# plan FILE KEY=VALUE..: a plan of one substation with these values in place of those below
plan() {
    local file=$1 lanes='[2, 2, 2, 2, 2, 2, 2, 2, 2]' pair
    local -A keys=([confirm_ms]=5000 [response_ms]=10000 [select_ms]=300 [retries]=0 [unsolicited]=false [queue]=$lanes [queue2]=$lanes)
    local -A own=([lanes]=$lanes [binary]=[] [counter]=[] [analog]=[] [deadband]=[] [outputs]=6 [setpoints]=0 [base]='[0, 0, 0, 0, 0]')
    shift
    for pair; do
        if [ -n "${keys[${pair%%=*}]+there}" ]; then keys[${pair%%=*}]=${pair#*=}; else own[${pair%%=*}]=${pair#*=}; fi
    done
    for pair in "${!keys[@]}"; do echo "$pair = ${keys[$pair]}"; done >"$file"
    echo '[[substation]]' >>"$file"
    for pair in "${!own[@]}"; do echo "$pair = ${own[$pair]}"; done >>"$file"
}
# serve ARGS..: begins to serve station 0 of plan.toml, for two minutes at most, a checked one for four
serve() {
    timeout $((120 * slower)) "$dnp" outstation --plan plan.toml --station 0 --port "$port" "$@" >out 2>err </dev/null &
    served=$!
}
# talks NAME: the master does what standard input says, and all comes out so
talks() {
    if python3 "$master" "$port" >came 2>&1; then
        echo "ok $1"
        return
    fi
    echo "FAILED $1"
    sed 's/^/    /' came
}
# ended NAME STDOUT: the program has served its connections
ended() {
    local got=0
    wait "$served" || got=$?
    judge "$1" 0 "$2" "$got"
}
# tells NAME LINE..: the log begins with the line of the start, and has these but for that it listens and that it ends, each with TIME for its time and
# PEER for the address of a master
tells() {
    local name=$1
    shift
    printf '%s\n' "TIME $started" "$@" >want
    sed -E 's/^[0-9]{4}-[0-9]{2}-[0-9]{2}T[0-9]{2}:[0-9]{2}:[0-9]{2}\.[0-9]{3}Z /TIME /; / listening on /d; / and so the program ends: /d; s/127\.0\.0\.1:[0-9]+/PEER/g' err >log
    if cmp -s want log; then
        echo "ok $name"
        return
    fi
    echo "FAILED $name"
    diff want log | sed 's/^/    /'
}
