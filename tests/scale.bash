# Which programs the tests run from the shell, as scale.py says it to those in Python: the proved ones, or the checked ones, where
# `./test --quick` says so by DNP_QUICK=1. Of a checked program each access to memory is checked while it runs. It is slower
# and takes more memory: so what is long is scaled, as a case says by its name, and what measures memory is left out.
# dnp: what a call is made by; program: `dnp` by itself, where its process matters; stores_program: dnp_store_files of
# tests/crates, which is built without proof, and of which accesses are checked only where the others are checked
quick=${DNP_QUICK:-}
dnp=$top/dnp program=$top/crates/dnp/out/dnp stores_program=$top/out/tests/dnp_store_files
# How often as long the times of plans are by which a program waits: a checked one takes seconds to open its stores, since the
# cache of their pages is blanked octet by octet
slower=1
[ -z "$quick" ] || dnp=$top/out/checked/dnp program=$top/out/checked/dnp stores_program=$top/out/checked/dnp_store_files slower=4
# DNP=FILE: another build of it
[ -z "${DNP:-}" ] || dnp=$(readlink -f "$DNP") program=$(readlink -f "$DNP")

# left_out CASE..: says that these are left out
left_out() {
    local name
    for name; do echo "left out: $name, over a program that checks each access to memory"; done
}
