#!/bin/sh
# Starts the server over examples/mesh.serve and the gRPC bridge before it, by one command, and ends both when it is stopped
# (Ctrl-C, or SIGTERM) or one of them ends: these two alone, by their process ids.
#
#     examples/mesh.sh [--unproved] [WORD ..]     words for the bridge, as --skip-bad or --metrics 127.0.0.1:18201
#
# It stands in a package, too (`./xds --pack`, where the bridge was built), and starts what lies there. With FROM=FOLDER, as
# examples/mesh, the server holds what that folder's files say, and follows them. With --unproved the program that isn't proved is
# compiled and runs. XDS is another program; PORT and REST are the server's ports (18000, 18100), GRPC is the bridge's address
# (127.0.0.1:18200).
set -eu
top="$(cd "$(dirname "$0")/.." && pwd)"
port="${PORT:-18000}" rest="${REST:-18100}" grpc="${GRPC:-127.0.0.1:18200}"
unproved=""
if [ "${1:-}" = --unproved ]; then
    unproved=--unproved
    shift
fi
# (a package has it beside the program)
runs="$top/bin/bridge"
if [ ! -x "$runs" ]; then
    runs="$top/bridge/out/bridge"
    [ -x "$runs" ] || "$top/bridge/build"
fi

server="" bridge=""
finish() {
    trap '' INT TERM
    for it in $bridge $server; do
        kill "$it" 2>/dev/null || true
    done
    for it in $bridge $server; do
        wait "$it" 2>/dev/null || true
    done
}
trap 'finish; exit 0' INT TERM

# (exec, so that the process id is the program's own)
serve() {
    if [ -n "${FROM:-}" ]; then
        exec "$@" serve --port "$port" --rest-port "$rest" --from "$FROM" --lint < /dev/null
    fi
    exec "$@" serve --port "$port" --rest-port "$rest" < "$top/examples/mesh.serve"
}
if [ -n "${XDS:-}" ]; then
    ( serve "$XDS" ) &
else
    ( serve "$top/xds" $unproved ) &
fi
server=$!
"$runs" --listen "$grpc" --server "127.0.0.1:$port" --client-addresses "$@" &
bridge=$!
while kill -0 "$server" 2>/dev/null && kill -0 "$bridge" 2>/dev/null; do
    sleep 0.5
done
echo "mesh.sh: the server or the bridge has ended" >&2
finish
exit 1
