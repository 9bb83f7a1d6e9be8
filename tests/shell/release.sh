#!/bin/bash
# What tools/release makes of a proved program, and what it refuses. It is made in a copy of the repository that has one commit
# of its own, with a log that stands in for that of its gate, since it is the gate that runs this. `./test --quick` has no
# proved program: there the checked one stands in for it in the copy. Nothing of the copy stays.
. "$(dirname "${BASH_SOURCE[0]}")/../expect.bash"
. "$top/tests/readme.bash"

if ! command -v git >/dev/null; then
    echo "left out: there is no git on this machine"
    exit 0
fi
copy=$room/copy made=$copy/crates/dnp/out/dnp
mkdir copy
tar -C "$top" --exclude=.git --exclude=out --exclude=./bench/build --exclude=__pycache__ -cf - . | tar -C copy -xf -
git() { command git -C "$copy" -c user.name=release -c user.email=release@invalid "$@"; }
git init -q 2>err && git add -A && git commit -qm 'A copy' || echo "FAILED to-make-a-copy"
commit=$(git rev-parse HEAD)
log=$copy/out/gate/$commit.log

# releases FOLDER: makes it there
releases() {
    status=0
    "$copy/tools/release" "$1" >out 2>err || status=$?
}
# refuses NAME WHY: it ends with 3, and says so
refuses() {
    releases "$room/none"
    judge "refuses-$1" 3 '' "$status"
    says "says-why-it-refuses-$1" "tools/release: $2"
}
build='; ./build makes the proved program'
refuses no-program "the proved program is not there ($made)$build"
mkdir -p "${made%/*}" "${log%/*}"
cp -p "$program" "$made"
echo 'built without proof' >"$made.build"
refuses the-checked-program "$made was built without proof$build"
echo 'proved, in a test' >"$made.build"
refuses a-commit-without-a-gate "no ./test has ended at $commit: there is no out/gate/$commit.log"
program_line="program $(sha256sum <"$program" | cut -d ' ' -f 1), proved, in a test"
printf '%s\n' 'this log stands in for that of a gate' "$program_line" '== tests/shell/release.sh' >"$log"
refuses a-gate-without-a-count "the last line of out/gate/$commit.log is no count: '== tests/shell/release.sh'"
printf '%s\n' "$program_line" '3 passed, 1 failed' >"$log"
refuses a-gate-that-failed "the gate failed at $commit: 3 passed, 1 failed"
printf '%s\n' "${program_line/ / 0}" '4 passed, 0 failed' >"$log"
refuses another-program-than-the-gate-s "$made is another program than the one that passed the gate, by out/gate/$commit.log"
printf '%s\n' "$program_line" '4 passed, 0 failed' >"$log"
echo >>"$copy/README.md"
refuses changed-files "the files are not those of $commit: 1 differ, the first of them ' M README.md'"
command cp -p "$top/README.md" "$copy/README.md"
: >"$copy/more"
refuses files-more "the files are not those of $commit: 1 differ, the first of them '?? more'"
rm "$copy/more"
touch -r "$copy/crates/dnp/src/main.rt" kept
touch "$copy/crates/dnp/src/main.rt"
refuses a-program-older-than-a-source "$made is older than the sources$build"
touch -r kept "$copy/crates/dnp/src/main.rt"
[ ! -e none ] || [ -z "$(ls none)" ] && echo "ok leaves-nothing-where-it-refuses" || echo "FAILED leaves-nothing-where-it-refuses"

# The archive: twice the same, whoever makes it and when
version=$("$program" --version | sed -E 's/^dnp ([0-9.]+).*/\1/')
name=dnp-$version-x86_64-linux
releases "$room/first"
judge releases 0 "$(cd first && sha256sum "$name.tar.gz")" "$status"
says releases-quietly ''
find "$copy" -name '*.md' -exec touch {} +
(umask 077 && cd / && TZ=Asia/Tokyo HOME=$room "$copy/tools/release" "$room/second" >/dev/null 2>&1)
cmp "first/$name.tar.gz" "second/$name.tar.gz" >out 2>&1
judge releases-the-same-again 0 '' $?

# What is in it, unpacked in an empty folder
mkdir empty && tar -C empty -xzf "first/$name.tar.gz" 2>err
ls empty >out
judge has-one-folder 0 "$name" 0
cd "empty/$name" || exit 1
LC_ALL=C ls >"$room/out"
(cd "$room" && judge has-these-parts 0 $'CHANGELOG.md\nREADME.md\nRELEASE\nSECURITY.md\nSHA256SUMS\ndnp\ndnp.build\ndocs\nexamples\nshare\ntests' 0)
sha256sum --check --quiet SHA256SUMS >"$room/out" 2>&1
(cd "$room" && judge has-the-sums 0 '' $?)
{ cut -c 67- SHA256SUMS && echo SHA256SUMS; } | LC_ALL=C sort | diff - <(find . -type f -printf '%P\n' | LC_ALL=C sort) >"$room/out"
(cd "$room" && judge has-the-sum-of-each-file 0 '' $?)
cp RELEASE "$room/out"
(cd "$room" && judge says-what-it-is 0 "version $version
commit $commit
program proved, in a test
gate 4 passed, 0 failed" 0)
cmp dnp "$program" >"$room/out" 2>&1
(cd "$room" && judge has-the-program 0 '' $?)
for part in share/dnp.1 share/dnp.bash share/_dnp docs/operating.md examples/plan.toml; do
    cmp "$part" "$top/$part" 2>&1
done >"$room/out"
(cd "$room" && judge has-manual-page-completions-documents-and-examples 0 '' 0)

# The README's commands, as a reader types them there, without the toolchain
cd "$room" || exit 1
paths=/usr/bin:/bin
PATH=$paths command -v rt >out
judge has-no-toolchain-there 0 '' 0
blocks released "$room/empty/$name/README.md"
for block in "$room"/released-*.block; do
    [[ $(head -n 1 "$block") = *'./dnp '* ]] && prints_block "$block" "$room/empty/$name" "$paths"
done
ls "$room"/released-*.block >/dev/null 2>&1 || echo "FAILED the-released-README-has-commands"
