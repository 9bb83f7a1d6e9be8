#!/bin/bash
# What tests/crates/run says of tests, and what tests/crates/build leaves of a program, in a copy with three crates, over stand-ins
# for the toolchain's `rt`, its layout, its compiler and its linker: nothing is built.
set -u
top=$(cd "$(dirname "${BASH_SOURCE[0]}")/../.." && pwd)
room=$(mktemp -d)
trap 'rm -rf "$room"' EXIT
cd "$room" || exit 1
copy=$room/copy
mkdir -p copy/{tools,bench/crates,crates/dnp_low/{src,specs,out},tests/crates/{dnp_{wire,station}_tests,dnp_files}/src,kit/{bin,c,toolchain/bin},made}
cp "$top"/tools/{crates,processes}.py copy/tools
cp "$top"/tests/crates/{run,build} copy/tests/crates
echo 'dnp_low:' >copy/crates.txt
printf '# What is tested.\ndnp_wire_tests: dnp_low\ndnp_station_tests: dnp_low\ndnp_files: dnp_low\n' >copy/tests/crates/crates
touch copy/{HANDLES,bench/crates/crates,crates/dnp_low/src/lib.rt,tests/crates/dnp_{wire,station}_tests/src/lib.rt.txt,tests/crates/dnp_files/src/main.rt.txt}
# (a crate's files have their names there, and of those below the sources alone; what it says stands in a file by its name)
cat >copy/kit/bin/rt <<'END'
#!/bin/bash
says=$(dirname "$0")/../$(basename "$PWD")
case $* in
fmt) echo "fn laid() {}" >src/lib.rt ;;
"try --test --seconds "*)
    [ -f src/lib.rt ] && [ -f ../dnp_low/src/lib.rt ] && [ "$(ls ../dnp_low)" = src ] && touch "$TMPDIR/left" || exit 9
    cat "$says.err" >&2
    cat "$says.out"
    exit "$(cat "$says.status")"
    ;;
"try --steps 1")
    # (what it is built in is a copy of the kit)
    kit=$(dirname "$0")/.. room=$TMPDIR/rt-try
    [ -f src/main.rt ] && [ ! -e "$says.fails" ] || { echo "src/main.rt:3:1: error: no such name" && exit 1; }
    mkdir "$room" && cd "$room" && "$kit/toolchain/bin/clang" -O0 -fsanitize=address -c >module.o && cat "$kit/c/asan.a" >>module.o &&
        "$kit/toolchain/bin/ld.lld" --threads=1 -o program module.o && exit 0
    exit 2
    ;;
*) exit 8 ;;
esac
END
cat >copy/kit/bin/rattle <<'END'
#!/bin/bash
[[ $* = "fmt --check src/"@(lib|main).rt ]] || exit 8
grep -L '^fn other' "$3" | grep -q . || { echo "src/lib.rt is not in the layout" && exit 1; }
END
echo 'echo "$@"' >copy/kit/toolchain/bin/clang
echo '[ "$*" = "--threads=1 -o program module.o" ] && cp module.o program' >copy/kit/toolchain/bin/ld.lld
echo checks >copy/kit/c/asan.a
chmod +x copy/kit/{bin,toolchain/bin}/*
# says CRATE STATUS OUTPUT ERRORS: what `rt try --test` is to say of a crate
says() {
    printf '%s' "$2" >"copy/kit/$1.status"
    printf '%b' "$3" >"copy/kit/$1.out"
    printf '%b' "$4" >"copy/kit/$1.err"
}
# expect NAME STATUS OUTPUT WORDS..: runs the copy's tests/crates/run; expect_of SCRIPT the same of another
expect() {
    expect_of run "$@"
}
expect_of() {
    local script=$1 name=$2 want=$3 text=$4 got=0
    shift 4
    TMPDIR=$room/copy/made PATH=$copy/kit/bin:$PATH "$copy/tests/crates/$script" "$@" >out 2>&1 </dev/null || got=$?
    if [ "$got" = "$want" ] && [ "$(cat out)" = "$text" ] && [ -z "$(ls copy/made)" ]; then
        echo "ok $name"
    else
        echo "FAILED $name: status $got, and $(ls copy/made | wc -l) files left"
        diff <(echo "$text") out
    fi
}
# holds NAME FILE TEXT: what a file holds
holds() {
    if [ "$(cat "$2")" = "$3" ]; then echo "ok $1"; else echo "FAILED $1" && diff <(echo "$3") "$2"; fi
}

says dnp_wire_tests 0 'tests: 2\ntest frames::units ... ok\n    some words\ntest lines ... ok\n' 'run=ended proved=no\n'
says dnp_station_tests 0 'tests: 1\ntest points ... ok\n' ''
CI=true expect prints-each-test 0 "ok dnp_wire_tests:frames::units
ok dnp_wire_tests:lines
ok dnp_station_tests:points
ok dnp_files: built"
expect runs-the-crates-that-are-named 0 "ok dnp_station_tests:points" dnp_station_tests
expect refuses-other-names 2 "tests/crates/run: 'dnp_low' is no crate of tests; these are: dnp_wire_tests, dnp_station_tests, dnp_files" dnp_low
says dnp_wire_tests 101 'tests: 2\ntest frames::units ... FAILED\n    at 7\ntest lines ... ok\n' 'run=ended status=101\n'
expect prints-what-a-failed-test-said 1 "FAILED dnp_wire_tests:frames::units
    at 7
ok dnp_wire_tests:lines
ok dnp_station_tests:points
ok dnp_files: built"
says dnp_wire_tests 1 '' 'src/lib.rt:9:17: error: no such name\nrun=none\n'
expect prints-why-a-crate-does-not-build 1 "FAILED dnp_wire_tests: it doesn't build, or has no test
    src/lib.rt:9:17: error: no such name
    run=none
ok dnp_station_tests:points
ok dnp_files: built"
says dnp_wire_tests 6 'tests: 2\ntest lines ... ok\n' 'run=no-answer\n'
expect misses-no-test-that-has-no-end 1 "ok dnp_wire_tests:lines
FAILED dnp_wire_tests: 1 of its 2 tests have ended
    run=no-answer" dnp_wire_tests
says dnp_wire_tests 4 'tests: 1\ntest lines ... ok\n' 'run=fault\n'
expect passes-no-other-status 1 "ok dnp_wire_tests:lines
FAILED dnp_wire_tests: it ended with exit status 4
    run=fault" dnp_wire_tests
echo 'fn other () {}' >copy/tests/crates/dnp_station_tests/src/lib.rt.txt
expect sees-another-layout 1 "FAILED dnp_station_tests: \`tests/crates/run --fmt dnp_station_tests\` lays it out
    src/lib.rt is not in the layout
ok dnp_station_tests:points" dnp_station_tests
expect lays-out 0 "laid out tests/crates/dnp_station_tests/src/lib.rt.txt" --fmt dnp_station_tests
expect lays-nothing-out-twice 0 "" --fmt dnp_station_tests

# Programs: fast, and with each access checked; the time of one is when its build began
holds makes-a-fast-program copy/out/tests/dnp_files '-O1 -c
!<arch>'
holds says-that-it-is-not-proved copy/out/tests/dnp_files.build 'built without proof'
touch -d '1 hour' copy/kit/dnp_files.fails
expect_of build builds-nothing-twice 0 '' dnp_files
expect_of build says-why-a-program-does-not-build 1 "tests/crates/build: dnp_files doesn't build
src/main.rt:3:1: error: no such name" --checked dnp_files
rm copy/kit/dnp_files.fails
expect_of build checks-accesses 0 '' --checked dnp_files
holds makes-a-checked-program copy/out/checked/dnp_files '-O0 -fsanitize=address -c
checks'
touch copy/kit/dnp_files.fails
sleep 0.1 && touch copy/crates/dnp_low/src/lib.rt
expect builds-what-has-changed 1 "FAILED dnp_files: it doesn't build
    tests/crates/build: dnp_files doesn't build
    src/main.rt:3:1: error: no such name" dnp_files
expect_of build builds-no-other-crate 2 "tests/crates/build: 'dnp_wire_tests' is no program of tests; these are: dnp_files" dnp_files dnp_wire_tests
