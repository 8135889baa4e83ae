#!/bin/bash
# Times the tower: one destination, and 200 ranks of two transfer points, each leading over both points of the rank below
# (those of rank 1 straight to the destination). A status that was worked out by recursion would take 2^200 steps.
# It wants the built program (make demo), and shows the time of `check`, that of all 400 statuses, and what they are, once
# with all links up and once with the link of the first point failed.
set -e
cd "$(dirname "$0")/.."
program=crates/route_desk/out/route_desk
folder=$(mktemp -d)
trap 'rm -rf "$folder"' EXIT

# tower MARKS: the network text, where MARKS are those of the link between the first point and the destination
tower() {
    awk -v marks="$1" '
    function code(n) { return int(n / 2048) "-" int(n / 8) % 256 "-" n % 8 }
    BEGIN {
        print "format = 2\nni = 2\npoints = [\n  \"" code(0) " sep\","
        for (n = 2; n <= 401; n++) print "  \"" code(n) " stp\","
        print "]\nsets = [\n  \"1 " code(2) " " code(0) " 0" marks "\",\n  \"2 " code(3) " " code(0) " 0\","
        id = 2
        for (n = 4; n <= 401; n++) for (low = 0; low < 2; low++)
            print "  \"" ++id " " code(n) " " code(2 * int(n / 2) - 2 + low) " 0\","
        printf "]\nplans = [\"%s", code(0)
        for (n = 2; n <= 401; n++) {
            rank = int(n / 2)
            printf " %s:%d:%s", code(n), rank, rank == 1 ? code(0) : code(2 * rank - 2) "+" code(2 * rank - 1)
        }
        print "\"]"
    }'
}

# every point of the tower is asked for
awk 'BEGIN { for (n = 2; n <= 401; n++) print "status 0-" int(n / 8) "-" n % 8 " 0-0-0" }' > "$folder/script"

for marks in '' f; do
    tower "$marks" > "$folder/tower"
    echo "link of the first point: 0$marks"
    time $program check "$folder/tower"
    time $program run "$folder/tower" < "$folder/script" > "$folder/answers"
    cut -d ' ' -f -4 "$folder/answers" | sort | uniq -c
    sed -n 3,6p "$folder/answers"
done
