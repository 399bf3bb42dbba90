#!/usr/bin/env bash
# Makes edge/test/live/trace.pcap, which the tests of `otap pcap` read: what clients send to a recorder, as tcpdump sees it.
# It takes tcpdump and the right to capture on the loopback. OTAP names the built command.
#
#     OTAP=edge/out/otap edge/test/live/trace.sh
set -eu
cd "$(dirname "$0")"
otap=$(realpath "${OTAP:-../../out/otap}")
room=$(mktemp -d)
: >"$room/log"
: >"$room/dump"
trap 'kill ${recorder:-} ${dump:-} 2>/dev/null || true; rm -rf "$room"' EXIT

"$otap" record --listen 127.0.0.1:0 --listen-http '' --dir "$room/captures" 2>"$room/log" &
recorder=$!
address=$(tail --pid=$recorder -f -n +1 "$room/log" | sed -n 's/.*msg=listening service=grpc addr=//p;T;q')
# Unbuffered, and its first line says that it captures.
tcpdump -i lo -U -s 0 -w "$room/trace.pcap" "tcp port ${address##*:}" 2>"$room/dump" &
dump=$!
tail --pid=$dump -f -n +1 "$room/dump" | sed -n '/listening on/q'

/usr/bin/python3 trace_client.py "$address"
kill -TERM "$recorder"
wait "$recorder" # the end of the connections is in the trace then
kill -TERM "$dump"
wait "$dump" || true
cp "$room/trace.pcap" trace.pcap
echo "${address##*:}" >trace.port
ls -l trace.pcap
