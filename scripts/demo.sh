#!/bin/bash
# demo.sh PROGRAM: runs the program on the networks of examples/, each line of a script beside its answer.
set -e
program=$1

# each line that gets an answer, with its answer
beside() {
    paste -d '\n' <(grep -v -e '^ *$' -e '^#' "$1" | sed 's/^/> /') <("$program" play examples/national.toml "$1") | sed 's/^/  /'
}

echo '$ route_desk run - < examples/first-run.txt'
"$program" run - < examples/first-run.txt
for script in national failures maintenance alarm; do
    [ -f "examples/$script.script" ] || continue
    echo
    echo "\$ route_desk play examples/national.toml examples/$script.script"
    beside "examples/$script.script"
done
echo
echo '$ route_desk check examples/national.toml'
"$program" check examples/national.toml
