#!/bin/sh
# writer.sh FILE   a daemon that takes half a second at TERM, and then writes what it holds into a file
trap 'sleep 0.5; echo written >> "$1"; exit 0' TERM
while :; do sleep 0.05; done
