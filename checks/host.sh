#!/bin/sh
# The example host in C: it is built without a warning, and answers every example script as the program jobboard does.
# Run at the top of the repository.
set -eu

[ -f crates.txt ] || { echo "host: not at the top of the repository" >&2; exit 2; }
scratch=$(mktemp -d)
trap 'rm -rf "$scratch"' EXIT
bad=0

# Prints what was expected and whether it came.
say() { # ok|BAD SENTENCE
    echo "host: $1: $2"
    [ "$1" = ok ] || bad=1
}

(cd crates/jobboard && rt run) >"$scratch/built" 2>&1 </dev/null || { cat "$scratch/built"; echo "host: the program is not built" >&2; exit 1; }
jobboard=crates/jobboard/out/jobboard

examples/host.sh <examples/worked.script >"$scratch/first" 2>"$scratch/errors" || true
if [ -x target/host ] && [ ! -s "$scratch/errors" ]; then say ok 'built without a warning'; else cat "$scratch/errors"; say BAD 'built without a warning'; exit 1; fi

for script in examples/*.script; do
    name=$(basename "$script" .script)
    target/host <"$script" >"$scratch/host" && "$jobboard" <"$script" >"$scratch/program" || bad=1
    if cmp -s "$scratch/host" "examples/$name.answers" && cmp -s "$scratch/program" "examples/$name.answers"; then
        say ok "$name: host and program print its answers"
    else
        say BAD "$name: host and program print its answers"
    fi
done

# Too long, in lines and in bytes: one refusal, and a status that says that no line was run.
awk 'BEGIN { for (i = 0; i < 1025; i++) print "B 0" }' >"$scratch/lines"
awk 'BEGIN { for (i = 0; i < 16385; i++) printf "B" }' >"$scratch/bytes"
for script in lines bytes; do
    for program in target/host "$jobboard"; do
        status=0
        "$program" <"$scratch/$script" >"$scratch/out" 2>"$scratch/errors" || status=$?
        if [ "$status" = 1 ] && [ "$(cat "$scratch/out")" = 'no 7 0' ]; then
            say ok "$program: too many $script are refused"
        else
            say BAD "$program: too many $script are refused"
        fi
    done
done
exit "$bad"
