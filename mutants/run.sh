#!/bin/sh
# Asks the prover about each mutant of list.txt. See run.py.
exec python3 "$(dirname "$0")/run.py" "$@"
