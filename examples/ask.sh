#!/bin/sh
# Asks for a passphrase twice without showing it, and writes it to FILE:
#
#     sh examples/ask.sh FILE
#
# Only you and root can read FILE. If the passphrase is empty, if the two differ, or if it can't be written, the status is 1, and there
# is no FILE afterwards, so that a command that names it is refused. But an old FILE stays if you may not remove it. Nothing stays in
# a variable of your shell.
set -euC

ask() {
    printf '%s:' "$1" >&2
    IFS= read -r answer || true
    echo >&2
}

refuse() {
    echo "$1: nothing was written." >&2
    exit 1
}

[ $# = 1 ] || refuse 'Give the name of one file'
folder=$(dirname -- "$1")
[ -d "$folder" ] && [ -w "$folder" ] || refuse "There is no folder $folder in which you may write"
umask 077
rm -f -- "$1"
if [ -t 0 ]; then
    kept=$(stty -g)
    trap 'stty "$kept"' EXIT
    trap 'echo >&2; exit 130' HUP INT QUIT TERM
    # After Ctrl-Z, the shell would show what is typed.
    trap '' TSTP
    stty -echo
fi
ask 'passphrase'
[ -n "$answer" ] || refuse 'The passphrase is empty'
passphrase=$answer
ask 'the same again'
[ "$answer" = "$passphrase" ] || refuse 'The two differ'
# Nothing is written into what somebody else made meanwhile: -C refuses a file, and -e a pipe, too.
{ [ ! -e "$1" ] && printf '%s' "$passphrase" > "$1"; } || {
    rm -f -- "$1"
    refuse "$1 can't be written"
}
