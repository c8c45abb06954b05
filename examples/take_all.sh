#!/bin/sh
# Takes the messages that lie in the folder "in", in the order of their names, for the party of the current folder. Each name is
# used once. A reply goes into "out" under the message's name. A message that was taken goes into "done", one that was refused into
# "refused", with the line that says why. At any other end it stays, and nothing behind it is taken.
# take_all.sh PARTY [PROGRAM]
party=${1:?a party}
program=${2:-x917}
mkdir -p in out "done" refused part || exit 1
for message in in/*; do
    [ -f "$message" ] || continue
    name=$(basename "$message")
    if [ -e "out/$name" ] || [ -e "done/$name" ] || [ -e "refused/$name" ]; then
        echo "take_all.sh: $name was there before" >&2
        exit 1
    fi
    # A reply of a run that was cut off: the message was taken then.
    ended=0
    if [ ! -s "part/$name" ]; then
        "$program" take --party "$party" <"$message" >"part/$name" 2>"part/$name.line"
        ended=$?
        cat "part/$name.line" >&2
    fi
    case $ended in
    0) mv "$message" "done/$name" && rm -f "part/$name.line" ;;
    1) mv "part/$name.line" "refused/$name.line" && mv "$message" "refused/$name" ;;
    *) rm -f "part/$name" "part/$name.line" && exit "$ended" ;;
    esac || exit 1
    if [ -s "part/$name" ]; then mv "part/$name" "out/$name"; else rm -f "part/$name"; fi || exit 1
done
