#!/bin/sh
# Starts on one machine what runs on several: etcd of three members, and two servers of two replicas each with a fleet beside either,
# by one command. Ends all of them when it is stopped (Ctrl-C, or SIGTERM) or one of them ends: these alone, by their process ids.
#
#     examples/fleet.sh [--unproved]
#
# With --unproved the program that isn't proved is compiled and runs. XDS is another program. The first server has its streams at ports
# 18000 and 18001, its polls at 18100 and 18101, and its operator's port at 18200; the second at 19000, 19100 and 19200; their fleets
# answer at 18300 and 19300, and etcd at 12379, 22379 and 32379. What etcd keeps is in a folder that is removed at the end.
set -eu
top="$(cd "$(dirname "$0")/.." && pwd)"
[ -x "$top/fleet/out/fleet" ] && command -v etcd >/dev/null || "$top/fleet/build" etcd-server
program="${XDS:-}"
if [ -z "$program" ]; then
    if [ "${1:-}" = --unproved ]; then
        "$top/xds" --unproved --version >/dev/null
        program="$top/crates/xds/out/unproved"
    else
        "$top/xds" --version >/dev/null
        program="$top/crates/xds/out/xds"
    fi
fi

folder="$(mktemp -d)" members="" fleets=""
finish() {
    trap '' INT TERM
    # (each fleet puts the last changes in etcd and stops its server, so etcd ends behind them)
    for them in "$fleets" "$members"; do
        for it in $them; do
            kill "$it" 2>/dev/null || true
        done
        for it in $them; do
            wait "$it" 2>/dev/null || true
        done
    done
    rm -rf "$folder"
}
trap 'finish; exit 0' INT TERM

cluster="m1=http://127.0.0.1:12380,m2=http://127.0.0.1:22380,m3=http://127.0.0.1:32380"
for n in 1 2 3; do
    client="http://127.0.0.1:${n}2379" peer="http://127.0.0.1:${n}2380"
    etcd --name "m$n" --data-dir "$folder/m$n" --listen-client-urls "$client" --advertise-client-urls "$client" --listen-peer-urls "$peer" \
        --initial-advertise-peer-urls "$peer" --initial-cluster "$cluster" --logger zap --log-level error &
    members="$members $!"
done
for first in 18 19; do
    "$top/fleet/out/fleet" --endpoints 127.0.0.1:12379,127.0.0.1:22379,127.0.0.1:32379 --program "$program" --port "${first}000" \
        --rest-port "${first}100" --admin-port "${first}200" --listen "127.0.0.1:${first}300" </dev/null &
    fleets="$fleets $!"
done
while :; do
    for it in $members $fleets; do
        if ! kill -0 "$it" 2>/dev/null; then
            echo "fleet.sh: one of them has ended" >&2
            finish
            exit 1
        fi
    done
    sleep 0.5
done
