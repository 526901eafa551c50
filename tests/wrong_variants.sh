#!/bin/sh
# Tries each wrong variant of the definitions: out/variants/results.txt says which examples refuse
# it.
exec python3 "$(dirname "$0")/wrong_variants.py" "$@"
