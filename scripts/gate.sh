#!/bin/bash
# gate.sh PROGRAM: the gate. Every crate and its tests are proved from nothing, the wrong bodies of must-fail/ tried, the
# tests and the stored run compared; the other wrong bodies are looked at; then the program that was just built runs the
# transcripts of the pages, explains what the tables of SCRIPT.md do, runs the worked examples, 500 questions of what to
# restore, surveys against the what-ifs asked one by one, warnings against the network texts, reports against the words of a
# script, and a session at a terminal, draws networks, writes and reads tables, writes files beside others' files, answers many
# sessions at one desk, is packed and installed, and is deprived of memory, input and output. The line before the last tells
# the processor time of all this, and with MEASURE=1 also how many times that of a first check of net_items at one job it is.
# Such checks are made before and behind all this, one for each processor each time, since processors change in such a time;
# they aren't counted. The last line is 'N passed, M failed', which stands in crates/route_desk/out/gate too if nothing failed.
cd "$(dirname "$0")/.."
# what the gate said last, which packages tell
said=crates/route_desk/out/gate
rm -f "$said"
log=$(mktemp)
trap 'rm -f "$log"' EXIT

# the processor time of a command and what it starts, in whole seconds; what it says goes to standard error
seconds() {
    local TIMEFORMAT='%U %S'
    { time "$@" > /dev/null 2>&1; } 2>&1 | awk '{ printf "%d\n", $1 + $2 }'
}

# the processor time of a first check of net_items at one job, over its libraries, in a tree of its own
first_check() {
    local tree crate
    tree=$(mktemp -d) || return
    mkdir "$tree/crates"
    cp HANDLES "$tree"
    for crate in point_codes link_state net_items; do
        cp -r "crates/$crate" "$tree/crates"
        rm -rf "$tree/crates/$crate/out"
        grep "^$crate:" crates.txt
    done > "$tree/crates.txt"
    for crate in point_codes link_state; do (cd "$tree/crates/$crate" && rt lib > /dev/null 2>&1); done
    (cd "$tree/crates/net_items" && seconds rt check --jobs 1)
    rm -rf "$tree"
}

# the mean processor time of such checks, one for each processor side by side, at most four: the gate keeps all processors
# busy too, and two of them that are threads of one core take more processor time side by side than one alone
unit_of_work() {
    local each i
    each=$(mktemp -d) || return
    for ((i = 0; i < $(nproc) && i < 4; i++)); do first_check > "$each/$i" & done
    wait
    awk '{ sum += $1 } END { if (NR) print int(sum / NR) }' "$each"/*
    rm -rf "$each"
}

# the processor time in a file to which `times` wrote: that of all that the shell has started and seen end, in whole seconds
in_children() { tail -1 "$1" | awk -F'[ms ]+' '{ print int($1 * 60 + $2 + $3 * 60 + $4) }'; }

[ -n "$MEASURE" ] && first=$(unit_of_work)
# a job for each processor, as many as memory holds, and none for a second part of a crate: each part loads all libraries anew
jobs=$(awk -v most="$(nproc)" '/^MemAvailable:/ { held = int($2 / 5000000); print held < 1 ? 1 : held < most ? held : most }' /proc/meminfo)
times > "$log"
before=$(in_children "$log")
RT_JOBS=$jobs rt ci | tee "$log"
status=${PIPESTATUS[0]}
read -r passed failed <<< "$(tail -1 "$log" | sed -n 's/^\([0-9]*\) passed, \([0-9]*\) failed$/\1 \2/p')"
if [ $status -ne 0 ] || [ "${failed:-1}" -ne 0 ]; then
    exit 1
fi
# a wrong body that doesn't compile shows nothing, and the prover lets it pass
untried=$(grep -c ': BAD EDIT: ' "$log")
if [ "$untried" -ne 0 ]; then
    echo "$untried of the wrong bodies can't be tried: see BAD EDIT above"
    echo "$passed passed, $untried failed"
    exit 1
fi

# runs a command, and adds the counts of its last line: 'N passed, M failed', or 'N examples, M failed', M of N
add() {
    local all kind less
    "$@" | tee "$log"
    status=${PIPESTATUS[0]}
    read -r all kind less <<< "$(tail -1 "$log" | sed -n 's/^\([0-9]*\) \([a-z]*\), \([0-9]*\) failed$/\1 \2 \3/p')"
    [ "$kind" = passed ] || all=$((${all:-0} - ${less:-0}))
    [ $status -ne 0 ] && [ "${less:-0}" -eq 0 ] && less=1
    passed=$((passed + all))
    failed=$((failed + ${less:-1}))
}

add scripts/wrong.py --look
add scripts/transcripts.py "$1" README.md docs/*.md
add scripts/explained.py "$1" docs/SCRIPT.md
add scripts/worked.py "$1"
add scripts/terminal.py "$1"
add scripts/mending.py "$1"
add scripts/surveying.py "$1"
add scripts/warning.py "$1"
add scripts/reporting.py "$1"
add scripts/drawing.py "$1"
add scripts/tables.py "$1"
add scripts/files.py "$1"
add scripts/serving.py "$1"
add scripts/packed.sh "$1"
add scripts/hostile.py --short "$1" crates/library_calls/out/library_calls
times > "$log"
spent=$(($(in_children "$log") - before))
[ -n "$MEASURE" ] && last=$(unit_of_work)
# a check of less than half a minute took over what another check on this machine had proved
[ "${first:-0}" -ge 30 ] && [ "${last:-0}" -ge 30 ] && unit=$(((first + last) / 2))
echo "processor time: $spent s${unit:+, $((spent / unit)) times the first check of net_items ($first s before, $last s behind it)}"
[ $failed -eq 0 ] && echo "$passed passed, $failed failed" > "$said"
echo "$passed passed, $failed failed"
[ $failed -eq 0 ]
