#!/usr/bin/env bash
# Lets an outside program read the packets of every example: tshark, with its tests of both checksums on. Each packet must
# be the datagram that the call above it sent: from the node's address and the end point's port, to the destination of the
# call, with its data. Where tshark isn't installed nothing is read, and this says so.
cd "$(dirname "$0")/.." || exit 1
if ! command -v tshark text2pcap >/dev/null; then
    echo "wire: tshark is not installed, no packet was read"
    exit 0
fi
work=$(mktemp -d) || exit 1
trap 'rm -rf "$work"' EXIT

# wanted FILE: for each packet of a text the source, destination, ports and data that its call asks for, with both
# checksums good (1).
wanted() {
    awk '
        $1 == "node" && !started { address[$2] = $3 }
        $0 == "trace" { started = 1 }
        started && $4 == "udp_cre_cep" && $9 == 0 { port[$1, $5] = $6 == 0 ? 49152 : $6 }
        started && $4 == "udp_snd_dat" { node = $1; cep = $5; split($6, to, ":"); data = substr($7, 2) }
        started && $1 == "pack" { print address[node], to[1], 64, 1, port[node, cep], to[2], 1, data }
    ' "$1"
}

packets=0
failed=0
for text in examples/*.txt; do
    wanted "$text" >"$work/wanted"
    [ -s "$work/wanted" ] || continue
    sed -n 's/^ pack x//p' "$text" | sed 's/../ &/g; s/^/0000/' >"$work/dump"
    text2pcap -q -l 101 "$work/dump" "$work/packets" >/dev/null 2>"$work/errors" || cat "$work/errors"
    tshark -r "$work/packets" -o ip.check_checksum:TRUE -o udp.check_checksum:TRUE -T fields -E separator=/s \
        -e ip.src -e ip.dst -e ip.ttl -e ip.checksum.status -e udp.srcport -e udp.dstport -e udp.checksum.status \
        -e udp.payload >"$work/read" 2>/dev/null
    if diff "$work/wanted" "$work/read" >"$work/differs"; then
        packets=$((packets + $(wc -l <"$work/read")))
    else
        echo "FAILED the packets of $text:"
        head -5 "$work/differs"
        failed=1
    fi
done
# The packets of a handshake, written by a program: addresses, checksums, ports, numbers, flags, window, MSS and data.
cat >"$work/wanted" <<'END'
10.0.0.1,10.0.0.2,1,49152,7,65536,0,0x2,1024,1,1460,
10.0.0.2,10.0.0.1,1,7,49152,65536,65537,0x12,1024,1,1460,
10.0.0.1,10.0.0.2,1,49152,7,65537,65537,0x10,1024,1,,
10.0.0.1,10.0.0.2,1,49152,7,65537,65537,0x18,1024,1,,68656c6c6f
10.0.0.2,10.0.0.1,1,7,49152,65537,65542,0x11,1019,1,,
END
sed 's/../ &/g; s/^/0000/' crates/example_handshake/stdout >"$work/dump"
text2pcap -q -l 101 "$work/dump" "$work/packets" >/dev/null 2>"$work/errors" || cat "$work/errors"
tshark -r "$work/packets" -o ip.check_checksum:TRUE -o tcp.check_checksum:TRUE -o tcp.relative_sequence_numbers:FALSE \
    -T fields -E separator=, -e ip.src -e ip.dst -e ip.checksum.status -e tcp.srcport -e tcp.dstport -e tcp.seq -e tcp.ack \
    -e tcp.flags -e tcp.window_size_value -e tcp.checksum.status -e tcp.options.mss_val -e tcp.payload \
    2>/dev/null | sed 's/,0x0*/,0x/' >"$work/read"
if diff "$work/wanted" "$work/read" >"$work/differs"; then
    packets=$((packets + $(wc -l <"$work/read")))
else
    echo "FAILED the packets of the handshake:"
    head -5 "$work/differs"
    failed=1
fi
echo "wire: tshark read $packets packets"
[ "$packets" -gt 0 ] && exit "$failed"
