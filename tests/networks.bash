# What the tests of `dnp concentrate` and `dnp centre` share, beside expect.bash: plans, and substations to be polled.
programs=$top/tests/programs
lf=$'\n'
# how long a plan's stations wait for an answer, in milliseconds
response=$((1000 * slower))

free() { python3 -c 'import socket; s = socket.socket(); s.bind(("127.0.0.1", 0)); print(s.getsockname()[1])'; }

# plan FILE ANALOGS SUBSTATIONS KEY=VALUE..: a plan of so many substations, with so many analog inputs of class 1, an output
# and a setpoint each, and these values in place of those below
plan() {
    local file=$1 analogs=$2 count=$3 pair number
    local lanes='[100, 100, 100, 100, 100, 100, 100, 100, 100]' ones='' zeros=''
    local -A keys=([confirm_ms]=5000 [response_ms]=$response [select_ms]=5000 [retries]=0 [unsolicited]=false [queue]=$lanes [queue2]=$lanes)
    shift 3
    for pair; do keys[${pair%%=*}]=${pair#*=}; done
    for ((number = 0; number < analogs; number++)); do ones+='1, ' zeros+='0, '; done
    for pair in "${!keys[@]}"; do echo "$pair = ${keys[$pair]}"; done >"$file"
    for ((number = 0; number < count; number++)); do
        printf '[[substation]]\nlanes = %s\nbinary = []\ncounter = []\nanalog = [%s]\ndeadband = [%s]\n' "$lanes" "${ones%, }" "${zeros%, }"
        printf 'outputs = 1\nsetpoints = 1\nbase = [0, 0, %d, %d, %d]\n' $((100 * number)) "$number" "$number"
    done >>"$file"
}

running=()
# substation NUMBER EVENTS: begins a substation of another make, which logs to log-NUMBER; with 'outstation' for EVENTS, one
# of `dnp`. It is ended by `gone`, and by itself only where the test was ended before.
substation() {
    local port=$((below + $1))
    if [ "$2" = outstation ]; then
        timeout 1800 "$dnp" outstation --plan plan.toml --station "$1" --port "$port" --connections 1000 >/dev/null 2>&1 </dev/null &
    else
        timeout 1800 python3 "$programs/substation.py" "$port" "$1" "$2" "log-$1" >/dev/null 2>&1 </dev/null &
    fi
    running+=($!)
    listens "$port"
}

# listens PORT: waits until somebody listens there
listens() {
    local try
    for ((try = 0; try < 400 * slower; try++)); do
        grep -qi ":$(printf '%04X' "$1") [0-9A-F]*:0000 0A" /proc/net/tcp && return
        sleep 0.02
    done
    echo "FAILED nobody-listens-at:$1"
}

# connects PORT: waits until somebody has connected there
connects() {
    local try
    for ((try = 0; try < 400 * slower; try++)); do
        grep -qi ":$(printf '%04X' "$1") [0-9A-F]*:[0-9A-F]* 01" /proc/net/tcp && return
        sleep 0.02
    done
    echo "FAILED nobody-connects-to:$1"
}

# gone: ends the substations that were begun
gone() {
    kill "${running[@]}" 2>/dev/null
    wait "${running[@]}" 2>/dev/null
    running=()
}

# concentrates ARGS..: begins to concentrate over queue.db and below.db
concentrates() {
    "$dnp" concentrate --plan plan.toml --queue queue.db --controls below.db --port "$port" --below "$below" "$@" >rounds 2>said </dev/null &
    concentrating=$!
}

# ended NAME STATUS STDOUT: holds what it printed against what was expected, once it has ended, in a minute at most
ended() {
    local got=0 try
    for ((try = 0; try < 600 * slower; try++)); do
        kill -0 "$concentrating" 2>/dev/null || break
        sleep 0.1
    done
    kill "$concentrating" 2>/dev/null
    wait "$concentrating" || got=$?
    mv rounds out
    mv said err
    judge "$1" "$2" "$3" "$got"
}

# polls NAME STATUS STDOUT ARGS..: a run of the first centre over journal.db and above.db
polls() {
    local name=$1 status=$2 stdout=$3
    shift 3
    expect "$name" "$status" "$stdout" '' centre --plan plan.toml --journal journal.db --controls above.db --port "$port" "$@"
}

# polls2 NAME STATUS STDOUT ARGS..: a run of the second centre over journal2.db and above2.db, at port2
polls2() {
    local name=$1 status=$2 stdout=$3
    shift 3
    expect "$name" "$status" "$stdout" '' centre --plan plan.toml --number 2 --journal journal2.db --controls above2.db --port "$port2" "$@"
}

# holds NAME FILE QUERY WANTED: what a database has, by sqlite3
holds() {
    sqlite3 -cmd '.timeout 20000' "$2" "$3" >out 2>err
    judge "$1" 0 "$4" $?
}
