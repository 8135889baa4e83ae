#!/bin/bash
# Proves and builds hub_load and the program by the gate's command (scripts/build.py), which goes on from what was proved before on this
# machine. Then it runs 32 workers, 8 readers and 16 collectors at one hub over the national network, EVENTS events in all (thirty
# million if none are given, which take about a minute), and tells how much memory hub_load has as it goes on, what it counted and what it
# timed. Last come 16 sessions over FIFOs at one desk of the program, for SECONDS (60 if none are given): scripts/serving.py --soak.
# soak.sh [EVENTS [SECONDS]]
cd "$(dirname "$0")/.."
events=${1:-30000000}
seconds=${2:-60}
load=crates/hub_load/out/hub_load
scripts/build.py hub_load && scripts/build.py || exit 1
for words in "looks 1 10000000" "looks 2 5000000" "looks 4 2000000" "looks 8 1000000" "refreshes 1 10000000" "refreshes 2 10000000" "refreshes 4 10000000" \
    "refreshes 8 10000000" "posts 60000"; do
    $load $words < examples/national.toml
done
$load soak 32 8 16 "$events" < examples/national.toml &
while sleep 5; grep -s VmRSS /proc/$!/status; do :; done
wait $! || exit 1
scripts/serving.py --soak "$seconds" crates/route_desk/out/route_desk
