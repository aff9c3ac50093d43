#!/bin/sh
# bench/peers.sh [SECONDS]: hand-overs of one client on one lock, of 64 on one, and of 64 on sixteen, of the lock server and, one
# after the other, of each peer that is installed: Redis, PostgreSQL, etcd, ZooKeeper (from Debian's packages), and flock(2); and how
# long `true` takes alone, behind flock(1) and behind `wozgirt lock`. Each gets a folder of its own and runs only while it is measured. The server's engine is crates/ring_tool/out/ring_tool, and where
# that is not built, its double. Needs cargo with rustc 1.89.
set -eu
cd "$(dirname "$0")/.."
top=$PWD
seconds=${1:-3}
out=$top/out/peers
mkdir -p "$out"
(cd server && cargo build -q --release && cargo double -q)
(cd bench/locks && cargo build -q --release --offline --target-dir "$out/target")
bench=$out/target/release/lock_bench
folder=$(mktemp -d /tmp/wozgirt-peers-XXXXXX)
chmod 755 "$folder"
peer=
# shellcheck disable=SC2317,SC2329 # called by the trap
end() {
    [ -z "$peer" ] || kill "$peer" 2>/dev/null || :
    wait
    rm -rf "$folder"
}
trap end EXIT
trap 'exit 1' INT TERM

# ticks PROCESS..: processor time of these, in hundredths of a second
ticks() {
    for process in "$@"; do cat "/proc/$process/stat" 2>/dev/null; done | awk '{ sum += $14 + $15 } END { print sum + 0 }'
}

# measure PEER ADDRESS [PROCESS..]: the three loads, with the processor time of the peer's processes for a hand-over
measure() {
    name=$1 address=$2
    shift 2
    for load in "1 1" "64 1" "64 16"; do
        before=$(ticks "$@" </dev/null)
        # shellcheck disable=SC2086 # two words
        "$bench" "$name" $load "$seconds" "$address" >"$out/line"
        after=$(ticks "$@" </dev/null)
        awk -v ticks=$((after - before)) -v seconds="$seconds" -v known=$# '
            { for (i = 1; i < NF; i++) if ($i == "handovers/s") count = $(i + 1) * seconds
              if (known) printf "%s cpu_us %.1f\n", $0, ticks * 10000 / count; else print }' "$out/line"
    done
}

# up COMMAND ..: waits until the command succeeds
up() {
    for _ in $(seq 200); do
        "$@" >/dev/null 2>&1 && return
        sleep 0.05
    done
    echo "$1 does not come up" >&2
    return 1
}

down() {
    kill "$peer"
    wait "$peer" || :
    peer=
}

run_wozgirt() {
    engine=$top/crates/ring_tool/out/ring_tool
    [ -x "$engine" ] || engine=$top/server/out/double/release/engine-double
    echo "wozgirt, engine $(basename "$engine"), $1"
    mkdir "$folder/journal$1"
    server/out/release/wozgirt-server --engine "$engine" --journal "$folder/journal$1" --locks "$(seq -s, -f l%g 0 15)" \
        --socket "$folder/lock.sock" $2 2>"$out/wozgirt.log" &
    peer=$!
    up server/out/release/wozgirt status --socket "$folder/lock.sock"
    # shellcheck disable=SC2046 # the number of its one child, and a space
    measure wozgirt "$folder/lock.sock" "$peer" $(cat "/proc/$peer/task/$peer/children")
    "$bench" commands 500 /bin/true "flock $folder/file /bin/true" \
        "server/out/release/wozgirt lock --socket $folder/lock.sock l0 -- /bin/true"
    down
}

run_redis() {
    redis-server --port 0 --unixsocket "$folder/redis.sock" --save '' --dir "$folder" >"$out/redis.log" &
    peer=$!
    up test -S "$folder/redis.sock"
    measure redis-poll "$folder/redis.sock" "$peer"
    measure redis-list "$folder/redis.sock" "$peer"
    down
}

run_postgres() {
    as=
    if [ "$(id -u)" -eq 0 ]; then
        as="setpriv --reuid=65534 --regid=65534 --clear-groups"
    fi
    mkdir -m 777 "$folder/postgres"
    $as "$1/initdb" -A trust -U postgres -D "$folder/postgres/data" >"$out/postgres.log"
    # shellcheck disable=SC2086 # no words, or several
    $as "$1/postgres" -D "$folder/postgres/data" -k "$folder/postgres" -c listen_addresses= -c max_connections=100 \
        >>"$out/postgres.log" 2>&1 &
    peer=$!
    up "$1/pg_isready" -q -h "$folder/postgres" -U postgres
    measure postgres "$folder/postgres/.s.PGSQL.5432"
    down
}

run_etcd() {
    etcd --data-dir "$folder/etcd" --log-level error --listen-client-urls http://127.0.0.1:12379 \
        --advertise-client-urls http://127.0.0.1:12379 --listen-peer-urls http://127.0.0.1:12380 >"$out/etcd.log" 2>&1 &
    peer=$!
    sleep 3
    measure etcd 127.0.0.1:12379 "$peer"
    down
}

run_zookeeper() {
    printf 'tickTime=2000\ndataDir=%s/zookeeper\nclientPort=12181\nclientPortAddress=127.0.0.1\nmaxClientCnxns=200\nadmin.enableServer=false\n' \
        "$folder" >"$folder/zoo.cfg"
    java -cp '/usr/share/java/*' org.apache.zookeeper.server.quorum.QuorumPeerMain "$folder/zoo.cfg" >"$out/zookeeper.log" 2>&1 &
    peer=$!
    sleep 5
    measure zookeeper 127.0.0.1:12181 "$peer"
    down
}

has() {
    command -v "$1" >/dev/null 2>&1 || { echo "skipped: $2 is not installed"; return 1; }
}

run_wozgirt no-sync --no-sync
run_wozgirt sync ""
if has redis-server Redis; then run_redis; fi
bin=$(ls -d /usr/lib/postgresql/*/bin 2>/dev/null | tail -n 1)
if has "${bin:-none}/initdb" PostgreSQL; then run_postgres "$bin"; fi
if has etcd etcd; then run_etcd; fi
if [ -e /usr/share/java/zookeeper.jar ]; then run_zookeeper; else echo "skipped: ZooKeeper is not installed"; fi
measure flock "$folder"
