#!/bin/sh
# Looks for lost writes in the runs of recorded.bundle by the seeds 0 to 15, and ends with status 4 if there is one. Requests
# may come late, as --prompt isn't there. Where it is installed, it runs the installed dmlab.
cd "$(dirname "$0")" || exit 1
dmlab=../../dmlab
[ -x "$dmlab" ] || dmlab=dmlab
"$dmlab" sweep --last 15 --lost --fail recorded.bundle
