#!/bin/bash
# try.sh         a first answer, with nothing proved and nothing built that stays: runs the program's source, unproved and with run-time
#                checks, on the networks and scripts of examples/, each line of a script beside its answer. It fails if a check does.
# try.sh ARG..   runs it with these arguments instead, as `try.sh run - < TEXT`. What it writes goes to standard output and standard
#                error once it has ended, at most 1 MiB of each, and its exit status is the program's. With no answer it is 3 (rt try
#                refused the source or failed), 4 (a fault) or 6 (too long or too much), and what rt said is shown.
set -u
room=$(mktemp -d)
trap 'rm -rf "$room"' EXIT
trap 'exit 130' INT
given=$PWD
cd "$(dirname "$0")/.." || exit
note="not the proved program: the same source, run unproved with run-time checks; \`make demo\` builds the proved one"
waiting="it takes one to three minutes .."

# what rt says of each case or of one run, beside what the program writes to standard error
try() (
    cd crates/route_desk && rt try "$@" 2> "$room/said"
)

if [ $# -gt 0 ]; then
    # the program runs in a folder of its own, so the files that are named, new ones too, get their whole names
    words=() before=
    for word; do
        case $before:$word in
        :* | explain:* | --about:* | --workers:* | *:-) ;;
        *:--save=/* | *:/*) ;;
        *:--save=*) word=--save=$given/${word#--save=} ;;
        *:-*) ;;
        *) word=$given/$word ;;
        esac
        words+=("$word")
        before=$word
    done
    echo "$note; $waiting" >&2
    [ -t 0 ] && [ "$1" = run ] && echo "standard input is a terminal, so the program gets none: give it a script as < FILE" >&2
    try -- "${words[@]}"
    status=$?
    if grep -q "^run=ended status=$status " "$room/said"; then
        sed -E '/^(checked|races|interpreter): |^run=ended /d' "$room/said" >&2
        exit $status
    fi
    cat "$room/said" >&2
    echo "try.sh: rt try gave no answer of the program" >&2
    exit $((status < 3 ? 3 : status))
fi

# input NAME ARG..: a run with standard input and arguments
input() {
    cat > "$room/cases/$1"
    printf '%s\n' "${@:2}" > "$room/cases/$1.args"
}

# beside NAME TEXT: the lines of a text behind its network that get an answer, each with its answer
beside() {
    paste -d '\n' <(sed '1,/^%%$/d' "$2" | grep -v -e '^ *$' -e '^#' | sed 's/^/> /') <(answers "$1") | sed 's/^/  /'
}

# what the program wrote in a run
answers() { awk -v name="$1" '/^== / { shown = $2 == name; next } shown' "$room/written"; }

echo "$note"
echo "$waiting" >&2
mkdir "$room/cases"
input first run - < examples/first-run.txt
for script in national failures; do
    { cat examples/national.toml; echo %%; cat "examples/$script.script"; } | input "$script" run -
done
input check check {} < examples/national.toml
# the stored run of the program, of which rt knows what it has to write
for part in stdin:stored args:stored.args stdout:stored.stdout; do
    cp "crates/route_desk/${part%:*}" "$room/cases/${part#*:}"
done
try --cases "$room/cases" > "$room/written"
status=$?
if [ $status -ne 0 ] || [ "$(grep -c '^case=.* run=ended status=0 ' "$room/said")" -ne 5 ]; then
    cat "$room/written" "$room/said"
    echo "rt try found a fault, or had no answer: see above"
    exit 1
fi
echo
echo '$ route_desk run - < examples/first-run.txt'
beside first examples/first-run.txt
for script in national failures; do
    echo
    echo "\$ (cat examples/national.toml; echo %%; cat examples/$script.script) | route_desk run -"
    beside "$script" "$room/cases/$script"
done
echo
echo '$ route_desk check examples/national.toml'
answers check | sed 's/^/  /'
