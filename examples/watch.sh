#!/usr/bin/env bash
# Runs a command in a window of a server of its own, by the word `do` alone.
#
#     examples/watch.sh COMMAND..
#
# What the command prints, 16 MiB at most, is written to the window's body line by line; bytes that are no UTF-8 become
# U+FFFD. Then the first event of the window is read, and at the end the window and its events are shown as the server's
# report has them. WINDOW is the window's name (+watch of this folder), ACMEFS another program than ./acmefs.
set -u -o pipefail
. "$(dirname -- "$(readlink -f -- "${BASH_SOURCE[0]}")")/acme.sh"
room=$(mktemp -d) && trap 'rm -rf -- "$room"' EXIT

# Two slots, one for each connection. Somebody types into window 1 once its events are read.
printf 'await 1\nkey 1 body :make\\n\n' | "$ACMEFS" serve "$room/acme" --clients 2 >"$room/journal" &
server=$!
until [ -S "$room/acme.1" ]; do kill -0 "$server" && sleep 0.1 || exit 1; done

# A walk to a file in `new` makes the window, which is number 1. A file that takes messages gets one a line.
{
    echo 'open 1 new/body w'
    echo 'open 2 1/ctl w'
    echo "name ${WINDOW:-$PWD/+watch}" | acme_lines 'write 2 0 '
    "$@" 2>&1 | acme_lines 'write 1 0 '
    printf '%s\n' 'write 2 0 :clean\n'
} | "$ACMEFS" do "$room/acme.0" acme || { kill "$server" && exit 1; }

# The read waits until there is an event.
printf '%s\n' 'open 1 1/event r' 'read 1 0 8000' | "$ACMEFS" do "$room/acme.1" acme
wait
sed -n '/^window /,$p' "$room/journal"
