#!/bin/bash
# packed.sh PROGRAM: packs the program as dist.sh does, twice, into a folder that it removes, and wants the same bytes. Then it unpacks
# the .tar.gz and installs the .deb below that folder, and wants of each that its program starts and answers as PROGRAM does, on
# examples that came with it, and that its manual page can be read. The last line is 'N passed, M failed'.
set -uo pipefail
program=$(realpath -e -- "${1:?the PROGRAM is missing}") || exit 1
cd "$(dirname "$0")/.." || exit
room=$(mktemp -d)
trap 'rm -rf "$room"' EXIT
passed=0 failed=0

# want WHAT COMMAND..: counts whether a command ends well, and shows what it said if it doesn't
want() {
    if "${@:2}" > "$room/said" 2>&1; then
        passed=$((passed + 1))
    else
        failed=$((failed + 1))
        echo "failed: $1"
        sed 's/^/  /' "$room/said"
    fi
}

# agrees FOLDER UNPACKED WORDS..: whether both programs write the same in a folder that has examples/, and end well
agrees() (
    cd "$1" || exit
    "$program" "${@:3}" < examples/first-run.txt > "$room/wanted" && "$2" "${@:3}" < examples/first-run.txt | diff "$room/wanted" -
)

# readable PAGE: whether man shows the page, and finds no fault in it
readable() (
    LC_ALL=C MANWIDTH=100 MANPAGER=cat man --warnings -l "$1" > "$room/page" 2> "$room/faults"
    cat "$room/faults"
    [ ! -s "$room/faults" ] && grep 'settled routing state' "$room/page"
)

# works NAME UNPACKED FOLDER PAGE: what is wanted of an unpacked program, its folder with examples/ and BUILD, and its manual page
works() {
    want "$1: --version" agrees "$3" "$2" --version
    want "$1: run - < examples/first-run.txt" agrees "$3" "$2" run -
    want "$1: check examples/small.toml" agrees "$3" "$2" check examples/small.toml
    want "$1: BUILD is one line" test "$(wc -l < "$3/BUILD")" = 1
    if command -v man > /dev/null; then want "$1: the manual page" readable "$4"; fi
}

# installed PACKAGE FOLDER: installs a package below the folder as root of a system with nothing in it, and else unpacks it there
installed() {
    mkdir -p "$2"/var/lib/dpkg/{info,updates,triggers} && touch "$2/var/lib/dpkg/status"
    dpkg --root="$2" --log=/dev/null --path-include='*' --force-not-root --force-depends --force-bad-path -i "$1" && return
    echo "dpkg can't install here, so the package is unpacked alone" >> "$room/notes"
    rm -rf "$2" && dpkg-deb -x "$1" "$2"
}

# summed FOLDER: whether SHA256SUMS has the right sum of each other file in the folder
summed() (
    cd "$1" && sha256sum --strict -c SHA256SUMS &&
        diff <(find . -type f ! -path ./SHA256SUMS -printf '%P\n' | sort) <(cut -c 67- SHA256SUMS | sort)
)

for time in first second; do
    want "packed, the $time time" scripts/dist.sh "$program" "$room/$time"
done
want "the same bytes each time" diff -r "$room/first" "$room/second"
if [ $passed -lt 2 ]; then
    echo "$passed passed, $failed failed"
    exit 1
fi

cd "$room" || exit
packed=$(ls first/*.tar.gz)
want "$packed: unpacked" tar -xzf "$packed"
tree=$room/$(basename "$packed" -x86_64-linux.tar.gz)
want "$packed: SHA256SUMS" summed "$tree"
works "$packed" "$tree/bin/route_desk" "$tree" "$tree/share/man/man1/route_desk.1"

if command -v dpkg-deb > /dev/null; then
    packed=$(ls first/*.deb)
    want "$packed: installed" installed "$packed" "$room/root"
    works "$packed" "$room/root/usr/bin/route_desk" "$room/root/usr/share/doc/route_desk" "$room/root/usr/share/man/man1/route_desk.1.gz"
    cat "$room/notes" 2> /dev/null
else
    echo "no .deb is tried: this machine has no dpkg-deb"
fi
echo "$passed passed, $failed failed"
[ $failed -eq 0 ]
