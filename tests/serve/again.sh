#!/bin/bash
# again.sh BIN DIR DB   in a process namespace: stops smfd with a service that takes its time, kills the server meanwhile, and
#                       gives its number to another process. Tells how smfd ended, and whether the other process lives
bin=$1
export SMF_DIR=$2
"$bin/smfd" "$2" "$3" &
smfd=$!
"$bin/svcadm" enable stubborn
until [[ $("$bin/svcs" -H stubborn) = online* ]]; do sleep 0.1; done
server=$(pgrep -f "^[^ ]* serve $2/run[.]")
kill "$smfd"
until [[ $("$bin/svcs" -H stubborn) = 'online*'* ]]; do sleep 0.1; done
kill -9 "$server"
for ((tries = 0; tries < 5000; tries++)); do
    echo $((server - 1)) > /proc/sys/kernel/ns_last_pid
    sleep 60 &
    other=$!
    [ $other = "$server" ] && break
    kill -9 $other
done
[ $other = "$server" ] || echo 'its number was not given again'
wait "$smfd"
echo "smfd ended with status $?"
kill -0 $other && echo 'the other process lives'
