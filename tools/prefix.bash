# Sourced by tools/install and tools/uninstall with their arguments. Sets
#   prefix   the folder that programs will find the library in
#   root     the folder that its files go to: the prefix, behind DESTDIR if that is set
#   record   the list of what is installed there: files, and with / at the end the folders that were made for them
tool=tools/$(basename "$0")

fail() { # WORDS
    echo "$tool: $*" >&2
    exit 1
}

[[ $# -eq 1 && -n $1 && $1 != -* ]] || fail "which prefix? For instance: $tool /usr/local"
prefix=$(realpath -ms -- "$1")
root=$(realpath -ms -- "${DESTDIR-}$prefix")
# shellcheck disable=SC2034
record=$root/share/hpfaddr/installed

# Of a path and the folders above it, the nearest that stands must be a folder in which we may write.
check_writable() { # PATH
    local at=$1
    while [ ! -e "$at" ]; do
        at=$(dirname "$at")
    done
    [ -d "$at" ] || fail "cannot write in $1: $at is not a folder"
    [ -w "$at" ] || fail "cannot write in $1: $at is not writable"
}
