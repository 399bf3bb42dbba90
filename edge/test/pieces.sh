#!/usr/bin/env bash
# Shares captures out over pieces, processors and machines, and compares what is joined with what one run writes.
#
#     edge/test/pieces.sh OTAP PROGRAM
#
# Each job and signal; a damaged capture; pieces of which one is killed in the middle of its output, resumed by GNU
# parallel; and two machines, which are two sshd on the loopback with keys and known hosts of their own. What isn't
# installed (parallel, sshd, rsync) leaves its part out, and that is said.
set -u
otap=$(realpath "$1") program=$(realpath "$2")
here=$(realpath "$(dirname "$0")")
room=$(mktemp -d)
started=()
# Ends what this test started, by its number, and removes its files.
finish() {
    for one in "${started[@]}"; do
        kill "$one" 2>/dev/null && wait "$one" 2>/dev/null
    done
    rm -rf "$room"
}
trap finish EXIT
failed=0
wrong() { echo "wrong: $*"; failed=1; }
cd "$room" || exit 1

# Through a folder on the path, as a user has them: otap, and the program beside it.
mkdir bin
ln -s "$otap" bin/otap
ln -s "$program" bin/otap_cli
export PATH=$room/bin:$PATH OTAP_CLI=$program
run_otap() { otap --otap-cli "$program" "$@"; }

# same FOLDER WORDS CAPTURE: what is joined is what one run writes to its two outputs, and its status.
same() {
    local folder=$1 words=$2 capture=$3
    # shellcheck disable=SC2086
    "$program" $words <"$capture" >one.out 2>one.err
    echo $? >>one.err
    # shellcheck disable=SC2086
    run_otap join "$folder" $words >joined.out 2>joined.err
    echo $? >>joined.err
    cmp one.out joined.out && cmp one.err joined.err || wrong "$words on $capture, joined"
}

# share CAPTURE PLACES WORDS...: splits, runs each of the jobs on each piece, and compares.
share() {
    local capture=$1 at=$2 words piece
    shift 2
    rm -rf pieces
    run_otap split "$capture" --from capture --size 1 --at "$at" -o pieces 2>split.err || wrong "split $capture: $(cat split.err)"
    cat pieces/*.capture | cmp - "$capture" || wrong "the pieces of $capture"
    for words in "$@"; do
        for piece in pieces/*.capture; do
            # shellcheck disable=SC2086
            run_otap part $words "$piece" || wrong "part $words $piece"
        done
        same pieces "$words" "$capture"
    done
}

for signal in traces logs metrics; do
    python3 "$here/telemetry.py" $signal 14 4 12 >$signal.requests
    "$program" encode $signal <$signal.requests >$signal.batches
    share $signal.batches resets list "schema $signal" "show $signal" "decode $signal" "status $signal" "replay $signal"
    share $signal.requests resets "tidy $signal" "encode $signal"
    share $signal.requests frames "tidy $signal"
    share $signal.batches frames list "schema $signal"
done

# Refused frames, and a damage in a later piece: numbers and offsets are those of the whole, and the status is 5.
{
    head -c 3000 logs.batches >cut && cat cut
} >damaged.batches
{
    cat logs.batches
    printf '\1\0\0\0\1x\2\0\0\0\0\0\0\0\0\1\x08\2\0\0\0\0'
    cat logs.batches
    printf '\7\7\7\7\7 and more'
} >refused.batches
for capture in damaged.batches refused.batches; do
    share $capture resets list "schema logs" "show logs" "decode logs" "status logs" "replay logs"
done
grep -q '^damage at ' joined.err || wrong "no damage was joined"

# What join does where a result is missing, and jobs that don't fit pieces that were cut anywhere.
share logs.batches resets list
rm pieces/000001.list.tar
run_otap join pieces list >out 2>err
[ $? = 3 ] && [ ! -s out ] && grep -q '000001.list.tar is missing' err || wrong "a missing result: $(cat err)"
run_otap split logs.batches --at frames --size 1 -o frames 2>/dev/null
run_otap join frames decode logs >out 2>err
[ $? = 2 ] && grep -q 'split with --at resets' err || wrong "decode on frames: $(cat err)"

if ! command -v parallel >/dev/null; then
    echo "left out, as there is no parallel: processors and machines"
    exit $failed
fi
# So that it doesn't ask for a citation on each run.
mkdir -p home/.parallel && touch home/.parallel/will-cite
parallel() { HOME=$room/home command parallel "$@"; }

# One piece is killed in the middle of what it writes: nothing of it counts, and the run goes on where it was stopped.
cat >bin/otap_stops <<'S'
#!/bin/sh
# The program, which on the third piece stops after half of its output until it is killed.
if [ "$(readlink /proc/self/fd/0)" = "$STOP_AT" ] && [ -p "$STOP_BY" ]; then
    "$OTAP_CLI" "$@" | head -c 100
    echo $$ >"$STOP_BY"
    exec sleep 1000
fi
exec "$OTAP_CLI" "$@"
S
chmod +x bin/otap_stops
rm -rf pieces
run_otap split logs.batches --size 1 -o pieces 2>/dev/null
mkfifo stopped
STOP_AT=$room/pieces/000002.capture STOP_BY=$room/stopped setsid --wait \
    env HOME="$room/home" parallel -j1 --joblog log "$room/bin/otap" --otap-cli "$room/bin/otap_stops" part decode logs {} ::: "$room"/pieces/*.capture \
    >parallel.out 2>&1 &
whole=$!
read -r sleeper <stopped
# All of that run's own processes, by the session that was made for it.
session=$(ps -o sid= -p "$sleeper" | tr -d ' ')
[ "$session" != "$(ps -o sid= -p $$ | tr -d ' ')" ] && kill -KILL $(ps -o pid= --sid "$session")
wait $whole 2>/dev/null
[ -f pieces/000001.decode-logs.tar ] || wrong "what was done before the kill is lost"
[ ! -e pieces/000002.decode-logs.tar ] || wrong "a killed piece left a result"
run_otap join pieces decode logs >out 2>/dev/null && wrong "a result is missing, and it was joined"
rm stopped
parallel -j4 --resume --joblog log "$room/bin/otap" --otap-cli "$program" part decode logs {} ::: "$room"/pieces/*.capture || wrong "resumed"
same pieces "decode logs" logs.batches

# Many captures, one by one: as README shows it.
mkdir captures
for n in 1 2 3 4 5 6; do python3 "$here/telemetry.py" logs $n 0 5 >captures/$n.capture; done
parallel --joblog captures.log otap encode logs {} -o {.}.batches ::: captures/*.capture 2>err || wrong "parallel: $(cat err)"
for n in 1 2 3 4 5 6; do "$program" encode logs <captures/$n.capture | cmp - captures/$n.batches || wrong "captures/$n"; done

if ! command -v ssh >/dev/null || ! [ -x /usr/sbin/sshd ] || ! command -v rsync >/dev/null; then
    echo "left out, as there is no sshd or rsync: two machines"
    exit $failed
fi

# A machine is an sshd with a folder of its own, in which each command runs.
machine() {
    local name=$1 port try
    mkdir -p "$name/home/.parallel" "$name/bin"
    touch "$name/home/.parallel/will-cite"
    ln -sf "$otap" "$name/bin/otap"
    ln -sf "$program" "$name/bin/otap_cli"
    ssh-keygen -q -t ed25519 -N '' -f "$name/host"
    cat >"$name/run" <<R
#!/bin/sh
cd "$room/$name/home" && export HOME="$room/$name/home" PATH="$room/$name/bin:\$PATH" && exec /bin/sh -c "\$SSH_ORIGINAL_COMMAND"
R
    chmod +x "$name/run"
    # No port is free for certain until it is taken: another one is tried where it isn't.
    for try in 1 2 3 4 5; do
        port=$(python3 -c 'import socket; s = socket.socket(); s.bind(("127.0.0.1", 0)); print(s.getsockname()[1])')
        cat >"$name/sshd" <<C
Port $port
ListenAddress 127.0.0.1
HostKey $room/$name/host
AuthorizedKeysFile $room/key.pub
PidFile none
UsePAM no
StrictModes no
PasswordAuthentication no
KbdInteractiveAuthentication no
MaxStartups 100
ForceCommand $room/$name/run
LogLevel INFO
C
        : >"$name/log"
        /usr/sbin/sshd -D -f "$room/$name/sshd" -E "$room/$name/log" &
        local server=$!
        if timeout 60 tail -n +1 -f --pid=$server "$name/log" | grep -q -m1 'Server listening'; then
            started+=("$server")
            echo "[127.0.0.1]:$port $(cut -d' ' -f1,2 "$name/host.pub")" >>known
            cat >>ssh <<C
Host $name
    HostName 127.0.0.1
    Port $port
    User $(id -un)
    IdentityFile $room/key
    IdentitiesOnly yes
    UserKnownHostsFile $room/known
    GlobalKnownHostsFile /dev/null
    StrictHostKeyChecking yes
    BatchMode yes
C
            return 0
        fi
        wait $server
    done
    wrong "sshd doesn't start: $(cat "$name/log")"
    return 1
}

[ "$(id -u)" != 0 ] || mkdir -p /run/sshd
ssh-keygen -q -t ed25519 -N '' -f key
machine one && machine two || exit 1
printf '#!/bin/sh\nexec ssh -F %s/ssh "$@"\n' "$room" >bin/ssh_here
chmod +x bin/ssh_here
printf '2/one\n2/two\n' >machines
rm -rf pieces
run_otap split logs.batches --size 1 -o pieces 2>/dev/null
PARALLEL_SSH=$room/bin/ssh_here parallel --sshloginfile machines --joblog machines.log \
    --transferfile {} --return {.}.decode-logs.tar --cleanup otap part decode logs {} ::: pieces/*.capture 2>err || wrong "two machines: $(cat err)"
same pieces "decode logs" logs.batches
for name in one two; do
    grep -q "	$name	" machines.log || wrong "the machine $name had no piece: $(cat machines.log)"
    find "$name/home" -name '*.tar' | grep -q . && wrong "results stay on $name"
done
# A machine whose key isn't the known one gets nothing.
ssh-keygen -q -t ed25519 -N '' -f other
sed -i "s,^\(\[127.0.0.1\]:$(awk '/^Port/{print $2}' two/sshd)\) .*,\1 $(cut -d' ' -f1,2 other.pub)," known
ssh -F ssh two true 2>err && wrong "a machine with another key was taken"
grep -q 'Host key verification failed' err || wrong "another host key: $(cat err)"

[ $failed = 0 ] && echo "pieces: all jobs and signals as one run, killed and resumed, and on two machines"
exit $failed
