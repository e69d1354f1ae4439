#!/bin/sh
# counter.sh FOLDER SECONDS   prints the next 1,000 numbers, of which the file FOLDER/count has the last one, and stays
last=$(cat "$1/count" 2> /dev/null)
first=$((${last:-0} + 1))
echo $((first + 999)) > "$1/count"
seq "$first" $((first + 999))
exec sleep "$2"
