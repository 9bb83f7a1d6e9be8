#!/bin/bash
# The centre of plan.toml polls once, over journal.db and above.db of this folder, which it makes where journal.db isn't
# there, and then shows both. Further words go to `dnp centre`: centre.sh --issue '0 pulse-on 3 250ms'
network=$(cd "$(dirname "${BASH_SOURCE[0]}")" && pwd)
[ -e journal.db ] || new=--new
"$network/../../dnp" centre --plan "$network/plan.toml" --journal journal.db --controls above.db --port 20100 $new "$@"
status=$?
sqlite3 -header journal.db 'SELECT * FROM journal'
sqlite3 -header above.db 'SELECT id, point, code, on_ms, state, status FROM control'
exit "$status"
