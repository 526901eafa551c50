#!/bin/bash
# Looks at the scripts: shellcheck at each of the shell (.shellcheckrc), and mypy at those of
# Python (mypy.ini), folder by folder. A tool that isn't installed is skipped, by a line that says
# so; Debian's packages shellcheck and mypy have them. One line for each case that fails, and at
# the end 'N passed, M failed'.
cd "$(dirname "$0")/.." || exit 1
. tests/cases.sh

# files: the files of the repository that may be scripts
files() {
    find . -maxdepth 1 -type f ! -name '.*' -printf '%f\n'
    find .ci examples share maintain tests tools -type f ! -path 'tests/rows/*' ! -path 'tests/kernel/*/*' \
        ! -path '*/__pycache__/*'
}

# of_kind NAME FIRST: the files whose name ends so, or whose first line matches
of_kind() {
    files | while read -r file; do
        [[ $file == *$1 ]] || head -n 1 "$file" | tr -d '\0' | grep -qE "$2" && echo "$file"
    done | LC_ALL=C sort
}

# noted COMMAND..: what the command writes, on one line, unless its status is 0
noted() {
    local told
    told=$("$@" 2>&1) || head -n 4 <<< "${told:-it failed}" | tr '\n' ' '
}

# try_shell: a case for each script of the shell
try_shell() {
    while read -r file; do
        count "shellcheck $file" "$(noted shellcheck -f gcc "$file")"
    done < <(of_kind .sh '^#!/bin/(ba)?sh|^# shellcheck shell=')
}

# try_python FOLDER: a case for the Python of a folder
try_python() {
    local scripts
    mapfile -t scripts < <(of_kind .py '^#!.*python' | sed -n "s,^$1/,,p" | grep -v /)
    count "mypy $1" "$(cd "$1" && noted mypy --config-file ../mypy.ini --cache-dir "$room/mypy" "${scripts[@]}")"
}

if command -v shellcheck > /dev/null; then
    try_shell
else
    echo "skipped: no shellcheck here, so no script of the shell was looked at"
fi
if command -v mypy > /dev/null; then
    for folder in maintain tests tools; do
        try_python "$folder"
    done
else
    echo "skipped: no mypy here, so no script of Python was looked at"
fi

finish
