#!/bin/bash
# The concentrator of plan.toml, until it is stopped, over queue.db and below.db of this folder, which it makes where
# queue.db isn't there. Further words go to `dnp concentrate`: concentrator.sh --port2 20101 serves a second centre too.
network=$(cd "$(dirname "${BASH_SOURCE[0]}")" && pwd)
[ -e queue.db ] || new=--new
exec "$network/../../dnp" concentrate --plan "$network/plan.toml" --queue queue.db --controls below.db \
    --port 20100 --below 20010 --rounds 1000000 $new "$@"
