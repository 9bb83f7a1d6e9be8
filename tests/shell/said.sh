#!/bin/bash
# The texts of lines stand in one file of each crate, and tests print each: by the sources alone, without a program.
export PYTHONDONTWRITEBYTECODE=1
python3 "$(dirname "${BASH_SOURCE[0]}")/said.py"
