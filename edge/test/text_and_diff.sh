#!/usr/bin/env bash
# Tries `otap text` and `otap diff` with real files and processes, and compares all that they print and say.
#
#     edge/test/text_and_diff.sh OTAP PROGRAM
#
# OTAP is the built command, edge/out/otap, and PROGRAM the proved program, crates/otap_cli/out/otap_cli.
set -u
cd "$(dirname "$0")/../.."
otap=$(realpath "${1:?edge/test/text_and_diff.sh wants the built command}")
program=$(realpath "${2:?edge/test/text_and_diff.sh wants the proved program}")
cases=$PWD/examples/cases
hand=$PWD/edge/internal/text/testdata
room=$(mktemp -d)
trap 'rm -rf "$room"' EXIT
cd "$room" || exit 1
failed=0

# want NAME STATUS: the output (in `out`) and what was said (in `err`), without the lines on the forms of files, and the
# status, are those of standard input: the output, a line `--`, and what was said.
otap() { "$otap" --otap-cli "$program" "$@" >out 2>err; status=$?; }
want() {
    grep -v '^otap: .* is read as .* (--from ' err >said
    { cat out; echo --; cat said; } >got
    cat >wanted
    if ! diff wanted got >difference; then
        echo "wrong: $1"
        cat difference
        failed=1
    fi
    if [ "$status" != "$2" ]; then
        echo "wrong: $1: status $status, not $2"
        failed=1
    fi
}

# What comes back of realistic requests over batches is the same telemetry, and as JSON it is what decode writes.
for signal in traces logs metrics; do
    for file in "$cases/tidy-$signal"/realistic*.capture; do
        items=$(case $signal in traces) echo spans ;; logs) echo log records ;; metrics) echo metrics ;; esac)
        "$otap" --otap-cli "$program" encode "$signal" "$file" -o batches 2>/dev/null || echo "encode failed"
        otap text "$signal" "$file" -o json
        [ "$status" = 0 ] && [ ! -s out ] || { echo "wrong: text $signal -o"; failed=1; }
        [ "$(wc -l <json)" = 4 ] || { echo "wrong: not a line for each request of $file"; failed=1; }
        gzip -k json
        n=$(jq -s 'def n: [.. | objects | (.spans, .logRecords, .metrics) // empty | length] | add; n' json)
        for other in "$file" batches json json.gz; do
            otap diff "$signal" "$file" "$other"
            printf 'the same telemetry: %s %s\n--\n' "$n" "$items" | want "diff $signal $file $other" 0
        done
        "$otap" --otap-cli "$program" decode "$signal" --to json batches >decoded 2>/dev/null
        otap text "$signal" batches
        { cat decoded; echo --; } | want "text $signal batches" 0
        rm -f json json.gz
    done
done

# A changed value is found, by a path that jq takes.
file=$cases/tidy-logs/realistic.capture
"$otap" text logs "$file" 2>/dev/null >json
jq -c 'if .resourceLogs[0].scopeLogs[0].logRecords[1].severityNumber then .resourceLogs[0].scopeLogs[0].logRecords[1].severityNumber |= 1000 else . end' json >changed
otap diff logs "$file" changed --most 1
path=$(sed -n 's/^  A \(\.[^ ]*\) = .*/\1/p' out)
was=$(jq -s "$path" json)
now=$(jq -s "$(sed -n 's/^  B \(\.[^ ]*\) = .*/\1/p' out)" changed)
if [ "$now" != 1000 ] || ! grep -qxF "  A $path = $was" out || ! grep -qxF "  B $path = 1000" out || [ "$status" != 1 ]; then
    echo "wrong: a changed severity"
    cat out
    failed=1
fi

# Files by hand, changed by hand.
otap diff traces "$hand/traces.json" "$hand/traces.json"
want "the same file" 0 <<'END'
the same telemetry: 1 span
--
END
sed 's/"status": {"code": 1}/"status": {"code": 2}/; s/"k": "host.up"//; s/"2.1.0"/"2.2.0"/' "$hand/traces.json" >other.json
otap diff traces "$hand/traces.json" other.json
want "two changes" 1 <<'END'
span 0
  A .[0].resourceSpans[0].scopeSpans[0].scope.version = "2.1.0"
  B .[0].resourceSpans[0].scopeSpans[0].scope.version = "2.2.0"
  A .[0].resourceSpans[0].scopeSpans[0].spans[0].status.code = 1
  B .[0].resourceSpans[0].scopeSpans[0].spans[0].status.code = 2
2 differences; A has 1 span, B has 1 span
--
END
sed 's/"metadata": \[[^]]*\],//; s/, *"entityRefs": \[[^]]*\]//' "$hand/metrics.json" | tr -d '\n' | sed 's/\], *"entityRefs": \[{[^}]*}\]/]/' >carried.json
otap diff metrics "$hand/metrics.json" carried.json
want "what isn't carried" 1 <<'END'
metric 0
  A .[0].resourceMetrics[0].resource.entityRefs[0] = {"type":"service","idKeys":["service.name"]}
  B none
  A .[0].resourceMetrics[0].scopeMetrics[0].metrics[0].metadata[0] = {"key":"team","value":{"stringValue":"sales"}}
  B none
2 differences; A has 5 metrics, B has 5 metrics
--
END
otap diff metrics --carried "$hand/metrics.json" carried.json
want "what is carried" 0 <<'END'
the same telemetry: 5 metrics
--
END

# A request that is damaged, one of another signal, one with unknown fields, and keys that OTLP doesn't have.
printf '\0\0\0\0\3\x0a\x05\x01\0\0\0\0\0\0\0\0\0\x0c\x0a\x07\x12\x05\x12\x03\x9a\x06\x00\x98\x06\x01' >some
otap text logs some
want "a damaged request, and unknown fields" 1 <<'END'
{}
{"resourceLogs":[{"scopeLogs":[{"logRecords":[{}]}]}]}
--
otap: some, request 0: no OTLP request of logs: cannot parse invalid wire-format data
otap: not shown: 1 × 99, a field that OTLP doesn't have
otap: not shown: 1 × resourceLogs.scopeLogs.logRecords.99, a field that OTLP doesn't have
END
otap diff logs some some
want "a damaged request, compared" 5 <<'END'
--
otap: A, request 0: no OTLP request of logs: cannot parse invalid wire-format data
END
printf '\0\0\0\0\x10\x0a\x0e\x12\x0c\x12\x0a\x12\x08\1\2\3\4\5\6\7\xff' >span
otap text logs span
want "a span as a log record" 1 <<'END'
--
otap: span, request 0: no OTLP request of logs, but one of traces: severity_number of LogRecord has wire type 2
END
otap text traces span --indent
want "an indented span" 0 <<'END'
{
  "resourceSpans": [
    {
      "scopeSpans": [
        {
          "spans": [
            {
              "spanId": "01020304050607ff"
            }
          ]
        }
      ]
    }
  ]
}
--
END
otap text metrics "$hand/traces.json"
want "a file of another signal" 2 <<END
--
otap: $hand/traces.json, request 0: the key "resourceSpans" is that of traces, not of metrics
END
echo '{"resourceLogs":[{"scopeLogs":[{"logRecords":[{"body":{"stringValue":"a"},"note":{"x":[1]}},{"note":2}]}]}]}' >notes.json
otap text logs <notes.json
want "unknown keys, and standard input" 0 <<'END'
{"resourceLogs":[{"scopeLogs":[{"logRecords":[{"body":{"stringValue":"a"}},{}]}]}]}
--
otap: passed over: 1 × resourceLogs.scopeLogs.logRecords.note, a key that OTLP doesn't have
END
echo '{"resourceLogs":[{"scopeLogs":[{"logRecords":[{"traceId":"W47/95gDgQPSabYzgT/GDA=="}]}]}]}' >base64.json
otap text logs base64.json
want "ids in base64" 5 <<'END'
--
otap: base64.json, request 0: resourceLogs[0].scopeLogs[0].logRecords[0].traceId: an id is hexadecimal, and "W47/95gDgQPSabYzgT/GDA==" isn't
END

# A capture with a compressed message and a damage, and batches of which one is refused.
printf '\1\0\0\0\1\0\0\0\0\0\0\2\0\0\0\0\0\0\0' >damaged
otap text logs --from capture damaged
want "a damaged capture" 5 <<'END'
{}
--
otap: damaged is damaged at byte 16 (Truncated): what follows isn't read
otap: damaged has a compressed message, which isn't read
END
"$otap" --otap-cli "$program" encode logs "$hand/logs.json" "$hand/logs.json" 2>/dev/null >batches
{ cat batches; printf '\0\0\0\0\2\x12\x05'; cat batches; printf '\2\0\0\0\0'; cat batches; } >joined
otap diff logs "$hand/logs.json" joined
grep -c '^frame ' err >refused
[ "$(cat refused)" = 3 ] && [ "$status" = 1 ] || { echo "wrong: refused batches"; cat err; failed=1; }
otap diff logs joined --streams "$hand/logs.json" --most 0
tail -1 out | grep -qx '1 difference, the first 0 printed; A has 12 log records, B has 2 log records' || { echo "wrong: refused batches in A"; cat out; failed=1; }

# In a pipe a line comes as soon as its request is there; a reader that goes away is no news; a full disk is.
coproc piped { "$otap" --otap-cli "$program" text logs --from capture 2>/dev/null; }
pid=$piped_PID
for _ in 1 2; do
    printf '\0\0\0\0\2\x0a\0' >&"${piped[1]}"
    read -r -t 60 line <&"${piped[0]}" || line=nothing
    [ "$line" = '{"resourceLogs":[{}]}' ] || { echo "wrong: $line in a pipe"; failed=1; }
done
exec {piped[1]}>&-
wait "$pid" || { echo "wrong: the end of a pipe"; failed=1; }
coproc stopped { exec "$otap" --otap-cli "$program" text logs --from capture 2>err; }
pid=$stopped_PID
printf '\0\0\0\0\2\x0a\0' >&"${stopped[1]}"
read -r -t 60 line <&"${stopped[0]}"
kill -TERM "$pid"
timeout 60 tail --pid="$pid" -f /dev/null || kill -KILL "$pid"
wait "$pid"
status=$?
echo "$line" >out
want "interrupted while it waits for more" 130 <<'END'
{"resourceLogs":[{}]}
--
otap: interrupted
END
for _ in $(seq 1 20); do cat "$cases/tidy-logs/realistic.capture"; done >long
"$otap" text logs --from capture long 2>err | head -c 1 >out
status=${PIPESTATUS[0]}
echo >>out
want "a reader that went away" 4 <<'END'
{
--
END
"$otap" text logs --from capture long >/dev/full 2>err
status=$?
: >out
want "a full disk" 4 <<'END'
--
otap: writing standard output: no space left on device
END

# Wrong words.
otap diff logs span
want "one file" 2 <<'END'
--
otap: diff wants two files after the signal, A and B
END
otap diff logs - -
want "standard input twice" 2 <<'END'
--
otap: there is one standard input: A and B can't both be -
END
otap diff span span
want "no signal" 2 <<'END'
--
otap: diff wants a signal before the file span: traces, logs or metrics
END
otap text log span
want "a misspelt signal" 2 <<'END'
--
otap: no signal is called "log": did you mean logs?
END
otap diff logs span none
want "a file that isn't there" 3 <<'END'
--
otap: reading none: no such file or directory
END

exit $failed
