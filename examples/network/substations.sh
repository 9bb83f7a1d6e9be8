#!/bin/bash
# Both substations of plan.toml, until this is stopped: `dnp outstation` is 0, and one of another make is 1, with two events
# for each poll. What they do is printed.
network=$(cd "$(dirname "${BASH_SOURCE[0]}")" && pwd)
top=$network/../..
trap 'kill $(jobs -p)' EXIT
python3 "$top/tests/programs/substation.py" 20011 1 2 /dev/stdout &
"$top/dnp" outstation --plan "$network/plan.toml" --station 0 --port 20010 --connections 1000000 &
wait
