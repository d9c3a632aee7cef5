#!/usr/bin/env bash
# tests/outside/cases.sh PROGRAM FOLDER
#
# Runs PROGRAM in FOLDER on each of its cases, and compares what comes of it. A case NAME is the files NAME.args (one
# argument a line), NAME.stdin, and what has to come: NAME.stdout, NAME.stderr, NAME.status. Prints a line for each
# case that differs, and at the end 'N passed, M failed'. The status is 1 where a case failed or there is none.
set -u
export LC_ALL=C

if [ $# -ne 2 ] || [ ! -f "$1" ] || [ ! -x "$1" ] || [ ! -d "$2" ]; then
    echo "usage: tests/outside/cases.sh PROGRAM FOLDER" >&2
    exit 2
fi
program=$(realpath "$1")
cd "$2" || exit 2
room=$(mktemp -d)
trap 'rm -rf "$room"' EXIT

# Prints the front of a file on one line.
shown() {
    printf "'%s'" "$(head -c 200 "$1" | tr '\n' '|' | tr -c '[:print:]' '?')"
}

# Says what came in place of what had to come, if they differ.
compare() {
    if ! [ -f "$2" ]; then
        printf ' there is no %s;' "$2"
    elif ! cmp -s "$2" "$3"; then
        printf ' %s is %s and not %s;' "$1" "$(shown "$3")" "$(shown "$2")"
    fi
}

passed=0
failed=0
for file in *.args; do
    [ -f "$file" ] || continue
    name=${file%.args}
    arguments=()
    while IFS= read -r word || [ -n "$word" ]; do
        arguments+=("$word")
    done <"$file"
    if [ -f "$name.stdin" ]; then
        timeout 60 "$program" ${arguments[@]+"${arguments[@]}"} <"$name.stdin" >"$room/stdout" 2>"$room/stderr"
        echo $? >"$room/status"
        wrong=$(for part in stdout stderr status; do compare "$part" "$name.$part" "$room/$part"; done)
    else
        wrong=" there is no $name.stdin;"
    fi
    if [ -z "$wrong" ]; then
        passed=$((passed + 1))
    else
        failed=$((failed + 1))
        echo "$name:${wrong%;}"
    fi
done
echo "$passed passed, $failed failed"
[ "$failed" -eq 0 ] && [ "$passed" -gt 0 ]
