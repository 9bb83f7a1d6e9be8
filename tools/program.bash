# Where the two programs stand and what each is, for the scripts that source this: dnp, build, test, bench/run and
# tools/release. It sets `top` to the top of the repository.
#
# The proved program is what `rt run` and `rt ci` leave: every crate below it is proved. The checked program is built
# without proof, and each access to memory is checked while it runs. Beside a program stands a file, its name with
# `.build` behind, of one line that says what it is: 'proved, ' and the line of `rt version`, or 'built without proof'.
# It is written last, by a rename: a program without it, or newer than it, is of a build that was interrupted. The time
# of a program's file is when its build began, so that a source which changed during the build is newer.
top=$(dirname "$(dirname "$(readlink -f "${BASH_SOURCE[0]}")")")
proved_program=$top/crates/dnp/out/dnp
checked_program=$top/out/checked/dnp
# One build of each kind goes on at a time, by these locks.
proved_lock=$top/out/build.lock
checked_lock=$top/out/checked.lock
without_proof='built without proof'

# The version that the program prints: it stands in its source alone.
version() {
    sed -n 's/^pub(crate) const VERSION: &str = "\(.*\)";$/\1/p' "$top/crates/dnp/src/main.rt"
}

# said_of PROGRAM: prints what its `.build` file says. Fails where there is none, or the program is newer.
said_of() {
    [ -x "$1" ] && [ -f "$1.build" ] && [ ! "$1" -nt "$1.build" ] && head -n 1 "$1.build" 2>/dev/null
}

# say_of PROGRAM WHAT: writes its `.build` file.
say_of() {
    printf '%s\n' "$2" 2>/dev/null >"$1.build.new" && mv "$1.build.new" "$1.build" 2>/dev/null
}

# The folders of sources of the crates that `dnp` stands on, and of its own.
sources() {
    tac "$top/crates.txt" | awk -v top="$top/crates/" '
        BEGIN { wanted["dnp:"] }
        $1 in wanted { for (at = 2; at <= NF; at++) wanted[$at ":"]; print top substr($1, 1, length($1) - 1) }'
}

# is_fresh PROGRAM: no source of it is newer than when its build began.
is_fresh() {
    local folders
    [ -x "$1" ] || return 1
    mapfile -t folders < <(sources)
    [ -z "$(find "$top/crates.txt" "${folders[@]/%//src}" "${folders[@]/%//specs}" "${folders[@]/%//proofs}" \
        -newer "$1" -print -quit 2>/dev/null)" ]
}

# Prints what the proved program is that `rt ci` or `rt run` left without a file, since they make none without proof, and
# gives it that file where it can be written. Fails while an `rt` works in its crate, and for a program that checks its
# accesses, which something else put there, or that doesn't run.
adopt_proved() {
    local said=proved kit
    (flock -n 8) 8<"$top/crates/dnp" || return 1
    ! grep -q __asan_init "$proved_program" && "$proved_program" --version >/dev/null 2>&1 || return 1
    kit=$(rt version 2>/dev/null | head -n 1) || kit=''
    said+=${kit:+, $kit}
    say_of "$proved_program" "$said" || true
    echo "$said"
}

# The proved program is there, and of these sources.
is_proved_fresh() {
    is_fresh "$proved_program" && [[ $(said_of "$proved_program" || adopt_proved) = proved* ]]
}

# The checked program is there, and of these sources.
is_checked_fresh() {
    is_fresh "$checked_program" && [ "$(said_of "$checked_program")" = "$without_proof" ]
}

# Removes the copies of crates that a build which was killed left: `rt ci` refuses a repository that has such copies.
clear_rooms() {
    mkdir -p "$top/out" && (flock -n 9 && rm -rf "$top/crates/dnp/out/side") 9>"$proved_lock"
}

# require_proved WHO [PROGRAM]: ends with 3 where the program, which is the repository's own where none is named, isn't
# proved, or isn't of these sources, and says so by name. What is built without proof is never taken in its place.
require_proved() {
    local who=$1 program=${2:-$proved_program} why
    if [ "$program" = "$proved_program" ] && is_proved_fresh; then
        return 0
    fi
    case $(said_of "$program" || true) in
    "$without_proof"*) why="$program was built without proof" ;;
    proved*)
        [ "$program" = "$proved_program" ] || return 0
        why="$program is older than the sources"
        ;;
    *)
        if [ ! -e "$program" ]; then
            why="the proved program is not there ($program)"
        elif grep -q __asan_init "$program" 2>/dev/null; then
            why="$program was built without proof"
        else
            why="nothing says that $program was built with a proof"
        fi
        ;;
    esac
    [ "$program" != "$proved_program" ] || ! is_checked_fresh ||
        why+="; $checked_program was $without_proof, and is not taken in its place"
    echo "$who: $why; ./build makes the proved program" >&2
    exit 3
}

# refuse_checked WHO PROGRAM..: ends with 3 where one of them is there and was built without proof, and says so by name.
refuse_checked() {
    local program
    for program in "${@:2}"; do
        [ -e "$program" ] || continue
        case $(said_of "$program" || true) in
        "$without_proof"*) ;;
        *) grep -q __asan_init "$program" || continue ;;
        esac
        echo "$1: $program was built without proof; ./build makes the proved program" >&2
        exit 3
    done
}
