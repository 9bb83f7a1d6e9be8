#!/bin/bash
# What a terminal is shown beside the texts: colours, and how far a long work is. To a pipe or a file goes neither.
. "$(dirname "${BASH_SOURCE[0]}")/../expect.bash"
export PYTHONDONTWRITEBYTECODE=1
DNP=$dnp python3 "$top/tests/shell/terminal.py"
