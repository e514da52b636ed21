# shellcheck shell=sh disable=SC2154
# What the scripts of this folder share: sourced in it, by a script that has put its name into $part. Goes to the repository's
# top, and makes a folder $work, which all may reach and which goes at the end.
CDPATH='' cd -- ../.. || exit 2
work=$(mktemp -d) && chmod 755 "$work" && mkdir "$work/tmp" && chmod 1777 "$work/tmp" || exit 2
TMPDIR=$work/tmp
export TMPDIR # so that what a killed command leaves goes as well
trap 'cleared' EXIT
trap 'exit 2' HUP INT TERM
exec 3>&1 # where differences are told, whatever a command's own output goes to
wrong=0 mounted=''

cleared() {
    for place in $mounted; do umount "$work/$place"; done
    chmod -R u+w "$work" && rm -rf "$work"
}

differs() {
    echo "trivsome $part: $*" >&3
    wrong=1
}

# expect STATUS COMMAND..: the command's status
expect() {
    wanted=$1
    shift
    "$@"
    got=$?
    [ "$got" -eq "$wanted" ] || differs "status $got instead of $wanted: $*"
}

# says WORDS FILE: the file has the words
says() { grep -q -e "$1" "$2" || differs "'$1' is not said, but: $(cat "$2")"; }

# soon COMMAND..: the command succeeds within ten seconds
soon() {
    tries=0
    until "$@"; do
        tries=$((tries + 1))
        [ $tries -lt 100 ] || return
        sleep 0.1
    done
}

# mount_small PLACE SIZE: a file system of its own at $work/PLACE, where that is allowed
mount_small() {
    mkdir -p "$work/$1" && mount -t tmpfs -o "size=$2" none "$work/$1" 2>/dev/null && mounted="$mounted $1"
}

nobody() { # COMMAND..: as nobody where we are root, else as we are
    if [ "$(id -u)" -eq 0 ]; then setpriv --reuid=65534 --regid=65534 --clear-groups "$@"; else "$@"; fi
}

stored() { python3 tests/reference/stored.py "$1"; } # NAME: the folder of its stored input and output

ended() {
    [ "$wrong" -ne 0 ] || echo "trivsome $part: as expected"
    exit "$wrong"
}
