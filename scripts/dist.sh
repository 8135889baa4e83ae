#!/bin/bash
# dist.sh PROGRAM [FOLDER]: packs the program with its manual page, pages and examples, into FOLDER, or dist/ if none is given: as
# route_desk-VERSION-x86_64-linux.tar.gz, for any folder, and as route-desk_VERSION_amd64.deb, for Debian and its kin. The file BUILD in
# each says which kit was on this machine, and what the gate said. The same files make the same packages, byte by byte.
set -euo pipefail
program=$(realpath -e -- "${1:?the PROGRAM is missing}")
shown=${2:-dist}
folder=$(realpath -m -- "${2:-$(dirname "$0")/../dist}")
cd "$(dirname "$0")/.."
umask 022
room=$(mktemp -d)
trap 'rm -rf "$room"' EXIT

# the time of the last commit stands for that of each file; without a checkout, the time of the program
last_commit() { [ -e .git ] && git log -1 --format="$1" 2> /dev/null; }
SOURCE_DATE_EPOCH=${SOURCE_DATE_EPOCH:-$(last_commit %ct || stat -c %Y "$program")}
export SOURCE_DATE_EPOCH

told=$("$program" --version)
version=$(sed -n 's/^route_desk \([0-9][0-9A-Za-z.+~]*\), proved with .*/\1/p' <<< "$told")
if [ -z "$version" ]; then
    echo "dist.sh: $1 --version tells no version of route_desk: $told" >&2
    exit 1
fi

# what the gate said last: it counts only for the sources as they are
gate=crates/route_desk/out/gate
changed() {
    find crates.txt crates \( -name out -o -name must-fail -o -name wrong-bodies \) -prune -o -type f \( -name '*.rt' -o -name '*.antt' -o -name crates.txt \) \
        -newer "$gate" -print -quit
}
kit=$(rt version 2> /dev/null) || kit="no kit on this machine"
if [ ! -f "$gate" ]; then
    said="the gate wasn't run on this machine"
elif [ -n "$(changed)" ]; then
    said="the gate wasn't run since a source changed"
else
    said="the gate: $(cat "$gate")"
fi
echo "$kit; $said" > "$room/BUILD"

# the times and rights of files are no part of what is packed
level() {
    chmod -R u=rwX,go=rX "$1"
    find "$1" -exec touch -h -d "@$SOURCE_DATE_EPOCH" {} +
}

tree=$room/route_desk-$version
install -D "$program" "$tree/bin/route_desk"
install -D -m 644 docs/route_desk.1 "$tree/share/man/man1/route_desk.1"
cp -r examples docs README.md LICENSE "$room/BUILD" "$tree"
(cd "$tree" && find . -type f -printf '%P\0' | LC_ALL=C sort -z | xargs -0 sha256sum > "$room/sums")
mv "$room/sums" "$tree/SHA256SUMS"
level "$tree"
mkdir -p "$folder"
packed=${tree##*/}-x86_64-linux.tar.gz
tar -C "$room" --sort=name --owner=0 --group=0 --numeric-owner --format=gnu -cf - "${tree##*/}" | gzip -9n > "$room/packed"
mv "$room/packed" "$folder/$packed"
echo "$shown/$packed"

if ! command -v dpkg-deb > /dev/null; then
    echo "no .deb is made: this machine has no dpkg-deb" >&2
    exit 0
fi
root=$room/root
pages=$root/usr/share/doc/route_desk
install -D "$program" "$root/usr/bin/route_desk"
mkdir -p "$root/usr/share/man/man1" "$pages" "$root/DEBIAN"
gzip -9nc docs/route_desk.1 > "$root/usr/share/man/man1/route_desk.1.gz"
cp -r README.md docs examples "$room/BUILD" "$pages"
cp LICENSE "$pages/copyright"
# the greatest version of the C library that a symbol of the program wants: on an older one it would not start
tables=$({ objdump -pT "$program" || readelf -VdW "$program" || true; } 2> /dev/null)
glibc=$(grep -o 'GLIBC_[0-9.]*[0-9]' <<< "$tables" | sort -Vu | tail -1) || true
[ -n "$glibc" ] || echo "neither objdump nor readelf tells a version of the C library, so the .deb names none" >&2
wanted="libc6${glibc:+ (>= ${glibc#GLIBC_})}"
if grep -q 'libgcc_s\.so\.1' <<< "$tables"; then wanted="$wanted, libgcc-s1"; fi
keeper=$(last_commit '%an <%ae>') || keeper="route_desk <none@localhost>"
cat > "$root/DEBIAN/control" <<CONTROL
Package: route-desk
Version: $version
Architecture: amd64
Maintainer: $keeper
Installed-Size: $(du -sk --apparent-size "$root/usr" | cut -f 1)
Depends: $wanted
Section: net
Priority: optional
Description: tells how signalling traffic is routed in an SS7 network
 It answers for a whole network which way signalling traffic goes, and who
 loses what when a link fails (MTP level 3, ITU-T Q.704). Each answer is
 machine-proved. It talks to no equipment: it reads a text.
CONTROL
level "$root"
packed=route-desk_${version}_amd64.deb
dpkg-deb --build --root-owner-group "$root" "$room/packed" > /dev/null
mv "$room/packed" "$folder/$packed"
echo "$shown/$packed"
