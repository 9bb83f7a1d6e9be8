#!/bin/bash
# Documents and help texts keep CONTRIBUTING's style: each kind of fault is counted, file by file, and the counts may only fall
# (tests/prose). After an improvement `tests/prose/count --lower` rewrites the table.
here=$(cd "$(dirname "${BASH_SOURCE[0]}")/../prose" && pwd)
export PYTHONDONTWRITEBYTECODE=1
"$here/count"
"$here/can_fail"
