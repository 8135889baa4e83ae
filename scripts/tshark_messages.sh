#!/bin/bash
# Shows that tshark (Debian's package) reads our transfer messages with the right kinds and codes. It stands outside the
# gate, and wants the built program (make demo), tshark and text2pcap.
# Three messages are those that the program answers for a network whose set 4 has failed; the last is of the greatest code.
set -e
cd "$(dirname "$0")/.."
program=crates/route_desk/out/route_desk
folder=$(mktemp -d)
trap 'rm -rf "$folder"' EXIT

$program run - > "$folder/answers" <<'NETWORK'
format = 1
ni = 2
points = ["2-1-1 sep", "2-1-2 sep", "2-10-1 stp", "2-10-2 stp"]
pairs = ["2-10-1 2-10-2"]
sets = ["1 2-1-1 2-10-1 0 1", "2 2-1-1 2-10-2 0 1", "3 2-10-1 2-1-2 0 1", "4 2-10-2 2-1-2 0f", "5 2-10-1 2-10-2 0"]
plans = ["2-1-2 2-1-1:2:2-10-1+2-10-2 2-10-1:1:2-1-2:m 2-10-2:1:2-1-2:m"]
%%
octets 2-10-2 2-10-1 2-1-2
octets 2-10-2 2-1-1 2-1-2
octets 2-10-1 2-1-1 2-1-2
NETWORK
echo 'octets 00 FF 3F 00 00 54 00 00' >> "$folder/answers"

# network indicator, destination, origin, heading code H1 (1 TFP, 3 TFR, 5 TFA), code concerned
cat > "$folder/wanted" <<'WANTED'
0x02 4177 4178 0x01 4106
0x02 4105 4178 0x03 4106
0x02 4105 4177 0x05 4106
0x00 16383 0 0x05 0
WANTED

sed 's/^octets/000000/' "$folder/answers" > "$folder/hex"
text2pcap -q -l 141 "$folder/hex" "$folder/capture" 2> /dev/null
tshark -r "$folder/capture" -T fields -E separator=' ' -e mtp3.network_indicator -e mtp3.dpc -e mtp3.opc -e mtp3mg.h1 \
    -e mtp3mg.apc 2> /dev/null > "$folder/read"
paste -d '|' "$folder/answers" "$folder/read"
diff "$folder/wanted" "$folder/read"
echo 'tshark reads all four as wanted'
