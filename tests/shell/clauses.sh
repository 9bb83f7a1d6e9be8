#!/bin/bash
# tools/clauses tells which clause, and what of what it cites, another commit has: in a repository of one crate.
set -u
tool=$(cd "$(dirname "${BASH_SOURCE[0]}")/../../tools" && pwd)/clauses
room=$(mktemp -d)
trap 'rm -rf "$room"' EXIT
cd "$room" || exit 1
if ! command -v git >/dev/null; then
    echo "left out: there is no git on this machine"
    exit 0
fi
git() { command git -c user.name=clauses -c user.email=clauses@invalid "$@"; }

mkdir -p tools crates/pumps/{src,specs,proofs}
cp "$tool" tools
cat >crates/pumps/src/lib.rt <<'END'
//! Pumps.
ghost use Rattle.std.specs.Prelude.{◌≡◌, ℕ};
ghost use Rattle.pumps.specs.Flows.{flow_of};

mod pump;

/// How much flows.
pub fn flow<S: Source>(pump: &Pump, source: &S, hours: u64) -> u64
    requires { hours ≤ 24 }
    ensures flows { result ≡ flow_of pump.now hours }
{
    pump.rate * hours
}
END
cat >crates/pumps/src/pump.rt <<'END'
//! A pump.

/// A pump.
pub struct Pump {
    /// Litres an hour.
    pub rate: u64,
}

/// What it draws from.
pub trait Source {
    /// Whether it is empty.
    fn is_empty(&self) -> bool;
}
END
cat >crates/pumps/specs/Flows.antt <<'END'
-- Definition: what flows.
use Rattle.std.specs.Prelude.{◌≡◌, ℕ}
use Rattle.pumps.specs.Sums.{◌⊗◌}
use Rattle.pumps.specs.declared.pump.Pump.{Pump}

-- what flows in so many hours
abbrev pub flow_of : Pump → ℕ → ℕ
flow_of pump hours = pump.rate ⊗ counted hours

-- how many hours count
abbrev pub counted : ℕ → ℕ
counted hours = hours

-- what no clause cites
abbrev pub idle : ℕ
idle = 0
END
cat >crates/pumps/specs/Sums.antt <<'END'
-- Definition: products.
use Rattle.std.specs.Prelude.{ℕ, ◌*◌}

infixl 20 ◌⊗◌

abbrev pub ◌⊗◌ : ℕ → ℕ → ℕ
a ⊗ b = a * b
END
git init -q 2>/dev/null && git add -A && git commit -qm 'Pumps' || echo "FAILED to-make-a-repository"

# expect NAME STATUS WANTED: edits that were made since are told so, and taken back
expect() {
    local came status=0
    came=$(tools/clauses HEAD . pumps flow 2>&1) || status=$?
    if [ "$status" = "$2" ] && [ "$came" = "$3" ]; then
        echo "ok $1"
    else
        printf 'FAILED %s\n    wanted %s: %s\n    came %s: %s\n' "$1" "$2" "$3" "$status" "$came"
    fi
    git checkout -q .
}
edit() { sed -i "$2" "crates/pumps/$1" && ! git diff --quiet || echo "FAILED to-edit $1"; }

same='flow: 2 clauses, the same; 5 cited'
expect nothing-has-changed 0 "$same, 0 differ"
edit src/lib.rt 's/pump.rate \* hours/hours * pump.rate/'
expect a-body-is-no-clause 0 "$same, 0 differ"
edit src/pump.rt 's/Litres an hour/Litres in an hour/; s/pub rate/#[error("dry")]\n    pub rate/'
edit specs/Flows.antt 's/counted hours$/& -- as they are/'
edit src/lib.rt 's/{ hours ≤ 24 }/& \/\/ a day/'
expect comments-and-attributes-count-for-nothing 0 "$same, 0 differ"
edit specs/Flows.antt 's/^idle = 0/idle = 1/'
expect what-is-not-cited-counts-for-nothing 0 "$same, 0 differ"
edit src/lib.rt 's/hours ≤ 24/hours ≤ 12/'
expect a-clause 1 'flow: 2 clauses, another text; 5 cited, 0 differ'
edit src/lib.rt '/requires/d'
expect a-clause-that-is-gone 1 'flow: 1 clauses, another text; 5 cited, 0 differ'
edit specs/Flows.antt 's/pump.rate ⊗ counted hours/counted hours ⊗ pump.rate/'
expect a-definition 1 "$same, 1 differ
    flow_of of crates/pumps/specs/Flows.antt: another text"
edit specs/Flows.antt 's/counted hours = hours/counted hours = 0/'
expect a-definition-that-it-cites 1 "$same, 1 differ
    counted of crates/pumps/specs/Flows.antt: another text"
edit specs/Sums.antt 's/a \* b/b * a/'
expect an-operator-that-a-definition-cites 1 "$same, 1 differ
    ◌⊗◌ of crates/pumps/specs/Sums.antt: another text"
edit src/pump.rt 's/rate: u64/rate: u32/'
expect a-type-that-a-definition-cites 1 "$same, 1 differ
    Pump of pumps: another text"
edit src/pump.rt 's/is_empty/is_full/'
expect a-trait-of-a-parameter 1 "$same, 1 differ
    Source of pumps: another text"
edit src/lib.rt 's/^pub fn flow/fn flow/'
expect a-function-that-is-gone 1 'flow: no such public function of pumps'
status=0
tools/clauses HEAD . pumps >/dev/null 2>&1 || status=$?
[ "$status" = 2 ] && echo "ok no-function" || echo "FAILED no-function: $status"
