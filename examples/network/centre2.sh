#!/bin/bash
# The second centre of plan.toml polls once, over journal2.db and above2.db of this folder, which it makes where journal2.db
# isn't there, and then shows its journal. The concentrator has to serve it: concentrator.sh --port2 20101.
network=$(cd "$(dirname "${BASH_SOURCE[0]}")" && pwd)
[ -e journal2.db ] || new=--new
"$network/../../dnp" centre --number 2 --plan "$network/plan.toml" --journal journal2.db --controls above2.db --port 20101 $new "$@"
status=$?
sqlite3 -header journal2.db 'SELECT * FROM journal'
exit "$status"
