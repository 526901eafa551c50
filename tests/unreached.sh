#!/bin/bash
# Looks for lemmas and definitions that nothing reaches, and for names that a file brings in and
# never names, by maintain/unreached: one line for each, and at the end 'N passed, M failed', which
# counts files.
cd "$(dirname "$0")/.." || exit 1
maintain/unreached
