#!/bin/sh
# Tries ./trivsome as its users do: running programs, building them, installing them. Prints what differs, and ends with status
# 1 if anything did.
set -u
CDPATH='' cd -- "$(dirname -- "$0")" || exit 2
wrong=0
for part in runs builds installs; do sh ./$part.sh || wrong=1; done
exit "$wrong"
