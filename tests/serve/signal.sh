#!/bin/sh
# signal.sh   a daemon that tells which signal ends it
# The shell tells of a sleep that the signal ended too.
exec 2> /dev/null
for signal in TERM INT HUP USR1; do
    # shellcheck disable=SC2064
    trap "echo $signal; exit 0" $signal
done
while :; do
    sleep 0.05 &
    wait $!
done
