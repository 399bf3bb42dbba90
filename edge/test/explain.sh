#!/usr/bin/env bash
# What `otap explain` says of captures of examples/, compared whole.
#
#     edge/test/explain.sh OTAP PROGRAM
set -u
otap=$(realpath "$1") program=$(realpath "$2")
cd "$(dirname "$0")/../../examples/cases" || exit 1
room=$(mktemp -d)
trap 'rm -rf "$room"' EXIT
failed=0

# says STATUS WORDS...: compares what is said, on standard output and then on standard error, with standard input.
says() {
    local status=$1 got
    shift
    cat >"$room/want"
    "$otap" --otap-cli "$program" explain "$@" --from capture >"$room/out" 2>"$room/err"
    got=$?
    cat "$room/out" "$room/err" >"$room/got"
    [ $got = "$status" ] || { echo "explain $*: status $got, expected $status"; failed=1; }
    diff "$room/want" "$room/got" || { echo "explain $*: other words"; failed=1; }
}

says 1 logs show-logs/refuses_column_of_another_type <<'W'
frame 0: batch 0 refused: stage 3 Column payload 30
  means: a known column has a type that doesn't store what its line says, or, where it holds ids, a coding that the line doesn't allow
  where: payload 30, schema "0": column severity_number is u32, and the profile has i32
otap: 1 of 1 frames of batches are refused
W
says 1 logs decode-logs/row_no_row_for_a_parent.capture <<'W'
frame 0: batch 0 refused: stage 5 Orphan payload 31
  means: no row has the id that is a row's parent
  where: payload 31 schema "1" rows 1
    row 0: parent_id=3 key="k" type=1 str="x"
  note: cells and ids are as they are stored: most ids are differences
otap: 1 of 1 frames of batches are refused
W
says 1 logs decode-logs/row_another_signals_type.capture <<'W'
frame 0: batch 0 refused: stage 2 PayloadType payload 40
  means: a payload type isn't one of the signal's
  where: payload 40 has 256 bytes: spans, of traces
otap: 1 of 1 frames of batches are refused
W
# Rows that are left out are counted, and none may be wanted.
says 1 logs decode-logs/row_no_row_for_a_parent.capture --rows 0 <<'W'
frame 0: batch 0 refused: stage 5 Orphan payload 31
  means: no row has the id that is a row's parent
  where: payload 31 schema "1" rows 1
    and 1 rows more: `otap show logs` prints them
otap: 1 of 1 frames of batches are refused
W

# A segment that is broken: the frame that broke it, until a reset.
printf '\0\0\0\0\1\x08' >"$room/cut"
cat ../logs.capture "$room/cut" ../logs.capture >"$room/joined"
says 1 logs "$room/joined" <<'W'
frame 4: batch - refused: stage 1 BadMessage payload -
  means: the bytes break protobuf's wire format, or a known field has another wire type
  where: the message has 1 bytes: 08
frame 5: batch 0 refused: stage 0 Broken payload -
  means: a frame since the latest reset was refused
  where: frame 4 broke the segment
frame 6: batch 1 refused: stage 0 Broken payload -
  where: frame 4 broke the segment
otap: 3 of 9 frames of batches are refused
W

# Requests are looked at as encode takes them.
printf '\0\0\0\0\2\x0a\x05' >"$room/request"
cat tidy-logs/realistic.capture "$room/request" >"$room/requests"
says 1 logs "$room/requests" <<'W'
frame 4: request refused: BadMessage
  means: the bytes break protobuf's wire format, or a known field has another wire type
otap: 1 of 5 frames of requests are refused
W

# Nothing is refused; and a damage, with status 5.
says 0 logs ../logs.capture <<'W'
otap: nothing is refused: 4 frames of batches
W
printf '\7\7' | cat ../logs.capture - >"$room/damaged"
says 5 logs "$room/damaged" <<W
otap: $room/damaged: damage at $(stat -c %s ../logs.capture): Truncated: what follows is left out
W

[ $failed = 0 ] && echo "explain: says what stands here"
exit $failed
