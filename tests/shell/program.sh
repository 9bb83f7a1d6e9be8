#!/bin/bash
# Which program ./dnp runs, what it says of it, and how it is built, proved and installed: in a copy of what these scripts
# need, with a stand-in for the toolchain's `rt`, so that nothing is proved and no program is the real one.
set -u
# (./test says by it which program its other cases take)
unset DNP_PROGRAM
top=$(cd "$(dirname "${BASH_SOURCE[0]}")/../.." && pwd)
room=$(mktemp -d)
trap 'chmod -R u+w "$room"; rm -rf "$room"' EXIT
chmod 755 "$room"
cd "$room" || exit 1

# tree NAME: a copy of what the scripts need, with two crates.
tree() {
    mkdir -p "$1"/{rt,share,docs,examples/{network,services},bench/crates,tests/{crates,programs}} "$1"/crates/{dnp,dnp_low}/src
    cp "$top"/{dnp,build} "$1"
    cp -r "$top/tools" "$1/tools"
    cp -r "$top/crates/dnp/help" "$1/crates/dnp/help"
    cp "$top/tests/shell/stand_in/rt" "$1/rt/rt"
    cp "$top"/share/* "$1/share"
    printf 'dnp_low: std\ndnp: dnp_low\n' >"$1/crates.txt"
    echo "pub(crate) const VERSION: &str = \"7.8.9\";" >"$1/crates/dnp/src/main.rt"
    touch "$1"/{HANDLES,README.md,CHANGELOG.md,SECURITY.md,bench/crates/crates,tests/crates/crates,docs/tour.md,examples/a.script,crates/dnp_low/src/lib.rt}
    touch "$1"/{examples/services/a.service,examples/network/a.sh,examples/network/plan.toml,tests/programs/substation.py}
    find "$1" -exec touch -d '2026-01-01' {} +
}

# run TREE WORDS..: runs ./dnp of the tree with the stand-in on the PATH; `out` and `err` have what it says.
run() {
    local tree=$1
    shift
    got=0
    PATH=$room/$tree/rt:$PATH "$room/$tree/dnp" "$@" >out 2>err </dev/null || got=$?
}

# as_nobody TREE WORDS..: the same, as somebody who can't write there
as_nobody() {
    local tree=$1 nobody=()
    shift
    [ "$(id -u)" != 0 ] || nobody=(setpriv --reuid 65534 --regid 65534 --clear-groups)
    got=0
    PATH=$room/$tree/rt:$PATH "${nobody[@]}" "$room/$tree/dnp" "$@" >out 2>err </dev/null || got=$?
}

# plain: what standard error said, with each duration as TIME and each folder of a test as ROOM.
plain() {
    sed -E "s|$room/[a-z]+|ROOM|g; s/\b([0-9]+ min )?[0-9]+ s\b/TIME/g" err
}

# judge NAME STATUS STDOUT STDERR: holds the last run against what was expected, each text without its last line feed.
judge() {
    local said
    said=$(plain)
    if [ "$got" = "$2" ] && [ "$(cat out)" = "$3" ] && [ "$said" = "$4" ]; then
        echo "ok $1"
        return
    fi
    echo "FAILED $1"
    printf '    expected  status %s, standard output %q, standard error %q\n' "$2" "$3" "$4"
    printf '    came      status %s, standard output %q, standard error %q\n' "$got" "$(cat out)" "$said"
}

# is NAME CONDITION..: whether the command succeeds.
is() {
    local name=$1
    shift
    if "$@"; then echo "ok $name"; else echo "FAILED $name"; fi
}

lf=$'\n'
words='sim --plan p'
how='building it without proof, which takes two to five minutes on two cores'
built='dnp: built without proof, in TIME; each memory access is checked at run time, so it is slower. ./build makes the proved program, in about an hour'
first="dnp: the program is not built yet: $how"
changed="dnp: the program is older than the sources: $how"
unproved="dnp: the proved program is older than the sources: $how"
# Files that stand for what a build leaves
no_marker() { [ ! -e "$1/out/checked/dnp.build" ] && [ ! -e "$1/out/checked/room" ]; }
# proves TREE: leaves what `rt ci` leaves, a proved program without a word beside it.
proves() { (cd "$1/crates/dnp" && PATH=$room/$1/rt:$PATH rt run); }
# waits CONDITION..: until the command succeeds, for thirty seconds.
waits() {
    local _
    for _ in {1..600}; do
        if "$@" 2>/dev/null; then return 0; fi
        sleep 0.05
    done
    return 1
}

# Progress at a pipe, a line each 20 seconds: it goes on beside the other cases.
tree slow
touch slow/rt/holds
(
    PATH=$room/slow/rt:$PATH slow/dnp $words >slow.out 2>slow.err </dev/null
    echo $? >slow.got
) &
(waits grep -q 'so far' slow.err || waits grep -q 'so far' slow.err; rm slow/rt/holds) &

# None is there
tree none
run none --version
judge says-the-version-where-it-is-not-built 0 'dnp 7.8.9 (not built)' ''
run none -V
judge says-the-version-by-one-letter 0 'dnp 7.8.9 (not built)' ''
run none --help
judge helps-without-a-build 0 "$(cat "$top/crates/dnp/help/dnp")" ''
run none sim --help
judge helps-with-a-command-without-a-build 0 "$(cat "$top/crates/dnp/help/sim")" ''
run none sim --far
judge refuses-words-without-a-build 2 '' "error: unexpected argument '--far' found

Usage: dnp sim [OPTIONS] --plan <FILE>

For more information, try '--help'."
is builds-nothing-for-these test ! -e none/out
run none $words
judge builds-the-checked-one-where-none-is-there 0 "checked: $words" "$first$lf$built"
run none $words
judge says-nothing-at-the-next-call 0 "checked: $words" ''
run none --version
judge says-the-version-of-the-checked-one 0 'dnp VERSION (built without proof)' ''
is leaves-nothing-else [ "$(ls none/out none/out/checked | tr '\n' ' ')" = 'none/out: checked checked.lock  none/out/checked: build.log dnp dnp.build ' ]
# (a build that was ended between the last two of its steps)
rm none/out/checked/dnp.build
run none $words
judge takes-no-program-of-which-nothing-is-said 0 "checked: $words" "$first$lf$built"
sleep 0.01 && touch none/out/checked/dnp
run none $words
judge takes-no-program-that-is-newer-than-what-is-said 0 "checked: $words" "$first$lf$built"
touch none/crates/dnp_low/src/lib.rt
run none $words
judge builds-it-again-where-a-source-changed 0 "checked: $words" "$changed$lf$built"
rm none/crates/dnp_low/src/lib.rt
run none $words
judge builds-it-again-where-a-source-is-gone 0 "checked: $words" "$changed$lf$built"

# The proved one
tree proved
proves proved
run proved $words
judge runs-the-proved-one 0 "proved: $words" ''
run proved --version
judge says-the-version-of-the-proved-one 0 'dnp VERSION (proved, rattle-kit-stand-in logic 0)' ''
DNP_PROGRAM=checked run proved $words
judge runs-the-checked-one-where-that-is-asked-for 0 "checked: $words" "$first$lf$built"
run proved $words
judge prefers-the-proved-one 0 "proved: $words" ''
touch proved/crates/dnp_low/src/lib.rt
run proved $words
judge runs-no-proved-one-of-other-sources 0 "checked: $words" "$unproved$lf$built"
run proved $words
judge runs-the-checked-one-of-these-sources 0 "checked: $words" ''
proved=ROOM/crates/dnp/out/dnp
checked=ROOM/out/checked/dnp
DNP_PROGRAM=proved run proved $words
judge refuses-the-checked-one-where-the-proved-one-is-asked-for 3 '' \
    "dnp: $proved is older than the sources; $checked was built without proof, and is not taken in its place; ./build makes the proved program"
# (a program of another build, put where the proved one belongs)
tree foreign
proves foreign
echo __asan_init >>foreign/crates/dnp/out/dnp
run foreign $words
judge takes-no-program-that-checks-for-a-proved-one 0 "checked: $words" "dnp: the program is not built yet: $how$lf$built"
tree copied
run copied $words
mkdir -p copied/crates/dnp/out
cp -p copied/out/checked/dnp{,.build} copied/crates/dnp/out
DNP_PROGRAM=proved run copied $words
judge takes-no-copy-of-the-checked-one-for-a-proved-one 3 '' \
    "dnp: $proved was built without proof; $checked was built without proof, and is not taken in its place; ./build makes the proved program"
# (where an `rt` works in the crate, what stands there may be half of a program)
tree worked
proves worked
exec 7<worked/crates/dnp
flock 7
run worked $words
judge takes-no-program-without-a-word-while-rt-works 0 "checked: $words" "$first$lf$built"
exec 7<&-
run worked $words
judge takes-it-when-rt-has-ended 0 "proved: $words" ''
# (a copy that nobody can write to)
tree kept
proves kept
chmod -R go+rX kept
chmod a-w kept/crates/dnp/out
as_nobody kept $words
judge runs-the-proved-one-where-nothing-can-be-written 0 "proved: $words" ''
# (one that stops half way, as a link that was interrupted leaves it)
tree half
proves half
echo 'exit 1' >half/crates/dnp/out/dnp
run half $words
judge takes-no-program-that-does-not-run 0 "checked: $words" "dnp: the program is not built yet: $how$lf$built"

# A source that changes while it is built
tree changes
touch changes/rt/holds
(waits [ -e changes/rt/held ] && touch changes/crates/dnp_low/src/lib.rt && rm changes/rt/holds) &
run changes $words
judge says-that-a-source-changed 3 '' "$first$lf$built${lf}dnp: a source changed while the program was built: call it again"
run changes $words
judge builds-what-changed 0 "checked: $words" "$changed$lf$built"

# A build that fails
tree fails
echo 'error: a source is wrong' >fails/rt/fails
run fails $words
judge says-that-a-build-failed 3 '' "$first${lf}error: a source is wrong${lf}dnp: the build failed; what was said is in ROOM/out/checked/build.log"
is leaves-nothing-of-a-build-that-failed no_marker fails
rm fails/rt/fails
run fails $words
judge builds-after-one-that-failed 0 "checked: $words" "$first$lf$built"
tree full
echo 1000000 >full/rt/big
got=0
(ulimit -S -f 100 && PATH=$room/full/rt:$PATH full/dnp $words >out 2>err </dev/null) || got=$?
judge says-that-a-file-can-not-be-written 3 '' "$first${lf}dnp: the build failed: ROOM/out/checked/room/dnp: File too large"
is leaves-nothing-of-a-file-that-is-too-large no_marker full

# One that is ended half way, by each signal, to ./dnp alone: nothing is left of it, and no process
# (one that has ended and that nobody has asked for is gone too)
gone() { [[ $(sed 's/.*) //' "/proc/$held/stat") != [!Z]* ]]; }
for signal in KILL TERM INT; do
    tree killed
    touch killed/rt/holds
    PATH=$room/killed/rt:$PATH setsid killed/dnp $words >out 2>err </dev/null &
    pid=$!
    waits [ -s killed/rt/held ]
    held=$(cat killed/rt/held)
    # (a shell ends by SIGINT only where what it waits for was ended by it too, as at a terminal)
    if [ $signal = INT ]; then kill -INT -- -$pid; else kill -$signal $pid; fi
    is "leaves-no-process-after-SIG$signal" waits gone
    kill -KILL -- -$pid 2>/dev/null
    wait $pid 2>/dev/null
    is "leaves-no-program-after-SIG$signal" test ! -e killed/out/checked/dnp.build
    rm -f killed/rt/holds
    run killed $words
    judge "builds-after-SIG$signal" 0 "checked: $words" "$first$lf$built"
    is "leaves-nothing-else-after-SIG$signal" [ ! -e killed/out/checked/room ]
    rm -rf killed
done

# Another call builds
tree twice
touch twice/rt/holds
PATH=$room/twice/rt:$PATH twice/dnp $words >first.out 2>first.err </dev/null &
waits [ -e twice/rt/held ]
PATH=$room/twice/rt:$PATH twice/dnp $words >out 2>err </dev/null &
pid=$!
waits grep -q waiting err
rm twice/rt/holds
got=0
wait $pid || got=$?
judge waits-for-another-call 0 "checked: $words" 'dnp: waiting for another call, which builds the program'
mv first.out out
mv first.err err
judge and-the-other-call-built-it 0 "checked: $words" "$first$lf$built"

# What isn't there, and what can't be written
tree bare
got=0
PATH=/usr/bin:/bin bare/dnp $words >out 2>err </dev/null || got=$?
judge says-that-there-is-no-toolchain 3 '' "dnp: the program has to be built, and there is no 'rt' (the Rattle toolchain) on the PATH"
chmod -R go+rX bare
chmod a-w bare
as_nobody bare $words
judge says-that-nothing-can-be-written 3 '' "dnp: the program has to be built, and ROOM/out/checked can't be written to"
mkdir -p bare/out/checked
chmod 777 bare/out
as_nobody bare $words
judge says-that-its-folder-can-not-be-written 3 '' "dnp: the program has to be built, and ROOM/out/checked can't be written to"

# One line that is redrawn at a terminal
tree drawn
touch drawn/rt/holds
(waits grep -q ' 2 s so far' drawn.said; rm drawn/rt/holds) &
PATH=$room/drawn/rt:$PATH script -qfec "drawn/dnp $words" drawn.said </dev/null >/dev/null
is redraws-one-line-at-a-terminal grep -qP '\rdnp: building, 1 s so far\x1b\[K\rdnp: building, 2 s so far\x1b\[K(.*\r)?\r\x1b\[Kdnp: built without proof' drawn.said

# ./build
build() {
    local tree=$1
    shift
    got=0
    PATH=$room/$tree/rt:$PATH "$room/$tree/build" "$@" >out 2>err </dev/null || got=$?
    sed -E -i 's/, [0-9]+ at a time: some [0-9]+ min/, N at a time: some N min/; s/some [0-9]+ min left/some N min left/' err
}
tree made
build made --far
judge build-refuses-a-word 2 '' 'usage: ./build [--install [PREFIX]]'
build made --install "$room/prefix"
judge installs-nothing-that-is-not-there 3 '' "./build --install: the proved program is not there ($proved); ./build makes the proved program"
run made $words
build made --install "$room/prefix"
judge installs-no-checked-program 3 '' \
    "./build --install: the proved program is not there ($proved); $checked was built without proof, and is not taken in its place; ./build makes the proved program"
is installs-nothing-then test ! -e prefix
echo 'error: not proved' >made/rt/fails
build made
judge build-says-what-is-not-proved 3 '' "build: 2 crates, N at a time: some N min, as a guess
build: dnp_low is not proved
== dnp_low
error: not proved
build: the build failed; the end of its log stands above, and all of it in ROOM/out/build.log"
rm made/rt/fails
build made
of_made="dnp 7.8.9 (proved, rattle-kit-stand-in logic 0)"
judge build-says-each-crate 0 "$room/made/crates/dnp/out/dnp is $of_made" "build: 2 crates, N at a time: some N min, as a guess
build: 1 of 2 crates: dnp_low is proved, in TIME; TIME so far, some N min left"
build made
judge build-does-nothing-twice 0 "$room/made/crates/dnp/out/dnp is $of_made" "build: nothing to do: $proved is of these sources"
run made $words
judge runs-what-build-made 0 "proved: $words" ''
build made --install "$room/prefix"
judge installs-the-proved-program 0 "$room/prefix/bin/dnp is dnp VERSION (proved, rattle-kit-stand-in logic 0)" ''
find prefix -type f -o -type l | sort >out
got=0 && : >err
judge installs-all 0 'prefix/bin/dnp
prefix/lib/dnp/dnp
prefix/lib/dnp/dnp.build
prefix/share/bash-completion/completions/dnp
prefix/share/doc/dnp/CHANGELOG.md
prefix/share/doc/dnp/README.md
prefix/share/doc/dnp/SECURITY.md
prefix/share/doc/dnp/dnp
prefix/share/doc/dnp/docs/tour.md
prefix/share/doc/dnp/examples/a.script
prefix/share/doc/dnp/examples/network/a.sh
prefix/share/doc/dnp/examples/network/plan.toml
prefix/share/doc/dnp/examples/services/a.service
prefix/share/doc/dnp/tests/programs/substation.py
prefix/share/man/man1/dnp.1
prefix/share/zsh/site-functions/_dnp' ''
DESTDIR=$room/staged build made --install /opt
judge installs-below-DESTDIR 0 "$room/staged/opt/bin/dnp is dnp VERSION (proved, rattle-kit-stand-in logic 0)" ''
DESTDIR=$room/staged build made --install
judge installs-below-the-usual-folder 0 "$room/staged/usr/local/bin/dnp is dnp VERSION (proved, rattle-kit-stand-in logic 0)" ''
touch file
build made --install "$room/file"
judge says-where-it-can-not-install 3 '' "build: ROOM/share/man/man1 can't be written to"
touch made/crates/dnp_low/src/lib.rt
build made --install "$room/prefix"
judge installs-no-stale-program 3 '' \
    "./build --install: $proved is older than the sources; ./build makes the proved program"
PATH=/usr/bin:/bin made/build >out 2>err </dev/null || got=$?
judge build-says-that-there-is-no-toolchain 3 '' "build: there is no 'rt' (the Rattle toolchain) on the PATH"
# (a build that is ended half way)
touch made/rt/holds
PATH=$room/made/rt:$PATH setsid made/build >out 2>err </dev/null &
pid=$!
waits [ -s made/rt/held ]
held=$(cat made/rt/held)
kill -KILL $pid
wait $pid 2>/dev/null
is build-leaves-no-process waits gone
DNP_PROGRAM=proved run made $words
judge runs-nothing-of-a-build-that-was-ended 3 '' "dnp: nothing says that $proved was built with a proof; ./build makes the proved program"
rm made/rt/holds
build made
is build-goes-on-after-one-that-was-ended [ "$got" = 0 ]

# What was begun first
wait
mv slow.out out
mv slow.err err
got=$(cat slow.got)
is tells-the-time-of-it grep -qx 'dnp: building, 20 s so far' err
judge tells-its-progress-each-20-seconds 0 "checked: $words" "$first${lf}dnp: building, TIME so far$lf$built"
