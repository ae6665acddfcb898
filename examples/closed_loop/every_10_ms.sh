#!/bin/sh
# Gives this number of instants with these values on the lines of the rig, one every 10 ms and a little more, since the shell needs time too:
#
#     sh every_10_ms.sh 500 210 | rig_host serve --port 4000
count=$1
shift
while [ "$count" -gt 0 ]; do
    echo "tick $*"
    count=$((count - 1))
    sleep 0.01
done
