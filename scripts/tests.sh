#!/usr/bin/env bash
# Looks whether each deliberate bug can still be applied, and runs all tests without a proof:
# `bash scripts/tests.sh [WORD..]`, where each WORD picks those whose names hold it, as in
# sync::one_step. The last line is 'N passed, M failed', and the status is 0 if none failed.
set -euo pipefail
scripts=$(dirname "$0")
python3 "$scripts/bugs.py" --list
exec python3 "$scripts/tests.py" "$@"
