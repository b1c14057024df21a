#!/bin/bash
# Waits until a program answers at an address, for at most 30 seconds: a unit whose ExecStartPost it is counts as started once its program
# serves.
#
# Usage: serving.sh HOST:PORT      (MAINPID is the program's process, as systemd sets it)
#
# It asks for the version, ten times a second. The status is 1 if the process is gone, such as one that had no memory for its table. A process
# that still runs after 30 seconds counts as started too: if it is full of clients, it serves them and not this one. If the script failed
# then, systemd would end the process, with its items.
address=$1
trap '' PIPE

is_answered() {
    local answer=
    exec 3<> "/dev/tcp/${address%:*}/${address##*:}" || return 1
    printf 'version\r\n' >&3 && IFS= read -r -t 10 answer <&3
    exec 3>&-
    [[ $answer = 'VERSION '* ]]
} 2> /dev/null

is_there() {
    [ -d "/proc/$MAINPID" ]
}

# It asks in a process of its own, since a try to connect may take minutes.
until is_answered; do
    sleep 0.1
done &
asking=$!
while is_there && kill -0 "$asking" && [ "$SECONDS" -lt 30 ]; do
    sleep 0.1
done 2> /dev/null
kill "$asking" 2> /dev/null
is_there
