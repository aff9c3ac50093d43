#!/usr/bin/env bash
# tunnel.sh: the recipe of the server's page, run: a server in one network, a client in another, ssh between them to a throw-away
# sshd. A lock is taken through the tunnel, then the network is cut: the client's command ends, and the lock is free for others.
# Needs root, ip, ssh and sshd; the last line is `N passed, M failed`, and what is not there is skipped.
# shellcheck disable=SC2016 # the inner shell expands
set -u
top=$(cd "$(dirname "$0")/../.." && pwd)
bin=${WOZGIRT_BIN:-$top/server/out/release}
engine=${WOZGIRT_ENGINE:-$top/crates/ring_tool/out/ring_tool}
[ -x "$engine" ] || engine=$top/server/out/double/release/engine-double
passed=0 failed=0 jobs=()

# skip WHY
skip() {
    echo "skipped: the tunnel, since $1"
    echo "0 passed, 0 failed"
    exit 0
}

# is WHAT WANTED GOT
is() {
    if [ "$2" = "$3" ]; then
        passed=$((passed + 1))
    else
        failed=$((failed + 1))
        printf 'FAILED: %s\nwanted: %s\ngot: %s\n' "$1" "$2" "$3"
    fi
}

# until_true COMMAND ..
until_true() {
    for _ in $(seq 600); do
        "$@" >/dev/null 2>&1 && return
        sleep 0.1
    done
    is "$*" "" "not within a minute"
}

end() {
    [ "${#jobs[@]}" -eq 0 ] || kill "${jobs[@]}" 2>/dev/null
    for it in "$near" "$far"; do
        # shellcheck disable=SC2046 # numbers
        kill $(ip netns pids "$it" 2>/dev/null) 2>/dev/null
    done
    ip netns delete "$near" 2>/dev/null
    ip netns delete "$far" 2>/dev/null
    rm -rf "$room"
}

[ "$(id -u)" -eq 0 ] || skip "this is not root"
for it in ip ssh ssh-keygen; do command -v "$it" >/dev/null || skip "there is no $it"; done
[ -x /usr/sbin/sshd ] || skip "there is no sshd"
[ -x "$bin/wozgirt-server" ] || skip "there are no programs in $bin"
room=$(mktemp -d) near=wozgirt-near-$$ far=wozgirt-far-$$
trap end EXIT
{ ip netns add "$near" && ip netns add "$far"; } 2>/dev/null || skip "no network can be made"
ip link add far0 netns "$near" type veth peer name near0 netns "$far" || skip "no network can be made"
ip -n "$near" address add 10.77.0.2/24 dev far0
ip -n "$far" address add 10.77.0.1/24 dev near0
for it in "$near far0" "$far near0" "$near lo" "$far lo"; do
    # shellcheck disable=SC2086 # two words
    set -- $it
    ip -n "$1" link set "$2" up
done

# a throw-away sshd with keys of its own
chmod 755 "$room"
mkdir -p "$room/server/journal" "$room/client" /run/sshd
ssh-keygen -q -t ed25519 -N '' -f "$room/host" && ssh-keygen -q -t ed25519 -N '' -f "$room/key"
cp "$room/key.pub" "$room/authorized"
echo "[10.77.0.1]:2222 $(cut -d' ' -f1,2 "$room/host.pub")" >"$room/known"
printf '%s\n' "Port 2222" "ListenAddress 10.77.0.1" "HostKey $room/host" "AuthorizedKeysFile $room/authorized" "PidFile none" \
    "StrictModes no" "PasswordAuthentication no" "PermitRootLogin yes" "UsePAM no" >"$room/sshd_config"
ip netns exec "$far" /usr/sbin/sshd -D -f "$room/sshd_config" -E "$room/sshd" &
jobs+=($!)
ip netns exec "$far" "$bin/wozgirt-server" --engine "$engine" --journal "$room/server/journal" --locks deploy --no-sync \
    --socket "$room/server/lock.sock" --longest-lease 4 2>"$room/log" &
jobs+=($!)
until_true test -S "$room/server/lock.sock"
until_true grep -q "listening" "$room/sshd"

# the recipe
ip netns exec "$near" ssh -p 2222 -i "$room/key" -o UserKnownHostsFile="$room/known" -o ExitOnForwardFailure=yes \
    -N -L "$room/client/lock.sock:$room/server/lock.sock" root@10.77.0.1 2>"$room/ssh" &
jobs+=($!)
until_true test -S "$room/client/lock.sock"
export WOZGIRT_SOCKET=$room/client/lock.sock
is "a lock through the tunnel" "token 1" "$(ip netns exec "$near" "$bin/wozgirt" lock deploy -- sh -c 'echo "token $WOZGIRT_TOKEN"')"

# the network is cut while a client holds the lock
ip netns exec "$near" "$bin/wozgirt" lock --lease 4 deploy -- \
    sh -c 'echo "token $WOZGIRT_TOKEN"; exec sleep 1000' >"$room/held" 2>"$room/lost" &
holder=$!
until_true grep -q "token 2" "$room/held"
ip -n "$near" link set far0 down
next=$(WOZGIRT_SOCKET=$room/server/lock.sock "$bin/wozgirt" lock --wait 60 deploy -- sh -c 'echo "token $WOZGIRT_TOKEN"')
is "the lock is free for others after the lease" "token 3" "$next"
wait "$holder"
is "the command behind the cut has ended" 75 $?
is "the server says why" 1 "$(grep -c 'went (lease)' "$room/log")"
cat "$room/lost"
grep 'went (lease)' "$room/log"
echo "$passed passed, $failed failed"
[ "$failed" -eq 0 ]
