#!/usr/bin/env bash
# Runs the live edge with real processes on the loopback: near and far ends, recorders, clients and backends.
#
#     edge/test/live.sh --install
#     edge/test/live.sh PROGRAM [WORDS...]
#
# --install installs what the tests take beside what edge/build takes, by Debian's names, in up to three tries; where there
# is no apt-get, the tests that need it are left out, and say so.
#
# PROGRAM is the proved program, crates/otap_cli/out/otap_cli. What it makes on the command line is what the bridges have
# to make, and it is their child too. The words that follow go to the tests, as -test.run Codes. edge/out/otap
# is built where it isn't there. Environment: OTAP, another build of the command.
set -eu
cd "$(dirname "$0")/../.."

packages=(python3-grpcio tshark)

missing() {
    for name in "${packages[@]}"; do
        dpkg-query -W -f '${Status}' "$name" 2>/dev/null | grep -q 'install ok installed' || echo "$name"
    done
}

install() {
    command -v apt-get >/dev/null || { echo "no apt-get: nothing is installed"; return; }
    for try in 1 2 3; do
        lacking=$(missing | tr '\n' ' ')
        [ -n "$lacking" ] || return 0
        # shellcheck disable=SC2086
        apt-get update -q >&2 && DEBIAN_FRONTEND=noninteractive apt-get install -q -y --no-install-recommends $lacking >&2 \
            || echo "try $try failed" >&2
    done
    lacking=$(missing | tr '\n' ' ')
    [ -z "$lacking" ] || { echo "edge/test/live.sh: these packages couldn't be installed: $lacking" >&2; exit 1; }
}

if [ "${1:-}" = --install ]; then
    install
    exit
fi

PROGRAM=$(realpath "${1:?edge/test/live.sh wants the proved program}")
shift
OTAP=$(realpath "${OTAP:-edge/out/otap}")
[ -x "$OTAP" ] || edge/build --program "$PROGRAM"
export PROGRAM OTAP OTAP_CLI="$PROGRAM"
tests="$PWD/edge/out/live_test"
edge/build --go test -c -o "$tests" finavoluth/edge/test/live
cd edge/test/live
exec "$tests" -test.parallel 8 -test.timeout 10m "$@"
