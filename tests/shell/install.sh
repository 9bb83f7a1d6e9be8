#!/bin/bash
# What ./build --install puts elsewhere runs by itself, without the repository: the proved program, which says so. Nothing is
# installed that was built without proof.
. "$(dirname "${BASH_SOURCE[0]}")/../expect.bash"
. "$top/tools/program.bash"

got=0
"$top/build" --install "$room/prefix" >out 2>err </dev/null || got=$?
if [ -n "$quick" ] && ! is_proved_fresh; then
    judge installs-nothing-without-a-proof 3 '' "$got"
    grep -q "^./build --install: .*; $checked_program was built without proof, and is not taken in its place; ./build makes the proved program$" err &&
        [ ! -e prefix ] && echo ok names-what-it-does-not-install || echo FAILED names-what-it-does-not-install
    exit
fi
judge installs-the-proved-program 0 "$room/prefix/bin/dnp is dnp $(version) ($(said_of "$proved_program"))" "$got"
[[ $(said_of "$proved_program") = proved,\ rattle-kit-* ]] && echo ok is-proved || echo FAILED is-proved
got=0
env -i prefix/bin/dnp --version >out 2>err </dev/null || got=$?
judge installed-says-what-it-is 0 "dnp $(version) ($(said_of "$proved_program"))" "$got"
# The first command of the README, in the folder of the documents
got=0
(cd prefix/share/doc/dnp && env -i ./dnp sim --plan examples/plan.toml <examples/a_lost_confirm.script) >out 2>err || got=$?
judge runs-the-examples 0 "$(cat "$top/examples/a_lost_confirm.report")" "$got"
cmp -s "$proved_program" prefix/lib/dnp/dnp && echo ok installs-the-very-program || echo FAILED installs-the-very-program
