#!/bin/sh
# Waiting, for scripts that begin programs: . tools/waiting.sh

# await COMMAND..: waits until the command succeeds, a minute at most.
await() {
    left=1200
    until "$@"; do
        left=$((left - 1))
        [ "$left" -gt 0 ] || return
        sleep 0.05
    done
}

# is_open PORT: whether a socket of this machine has that UDP port.
is_open() {
    grep -qis "^ *[0-9]*: [0-9a-f]*:$(printf %04x "$1") " /proc/net/udp /proc/net/udp6
}

# free_port_from N: a UDP port that no socket of this machine has now, N or the next one.
free_port_from() {
    port=$1
    while is_open "$port"; do
        port=$((port + 1))
    done
    echo "$port"
}

# free_port: such a port, 5683 or the next one.
free_port() {
    free_port_from 5683
}

# has_bytes FILE N: whether the file has so many bytes.
has_bytes() {
    [ -f "$1" ] && [ "$(wc -c <"$1")" -ge "$2" ]
}
