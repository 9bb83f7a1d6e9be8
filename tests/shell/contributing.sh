#!/bin/bash
# Each command that a document shows is run: as it stands, with smaller counts, in a crate of one function, or over stand-ins for what
# takes long, or it is typed by another file (contributing.py says which).
. "$(dirname "${BASH_SOURCE[0]}")/../expect.bash"
export PYTHONDONTWRITEBYTECODE=1
python3 "$top/tests/shell/contributing.py" </dev/null
