#!/bin/sh
# Mounts a lock directory under this machine's kernel, in a mount namespace of its own, and has shell
# scripts and Python lock files there. Prints a line for each that goes wrong, with why; then what
# `lockd check` says of the traces, and `N passed, M failed`. The status is 0 where none failed, and
# 77, with a line, where something is missing that it wants: root, /dev/fuse, a right to mount, a C
# compiler, Python 3.9, `unshare` and `flock`. It takes a minute and a half on two processors, and is
# killed after 7200 seconds.
#
#     tests/run mount/mount [NAME ..]      (only what has one of these words in its name)
#
# LOCKD names another program to take as `lockd`. Else it is built where it isn't. LOCKD_MOUNT names
# another one to take as lockd_mount; else programs/mount/build builds it, and a second one, with sanitizers,
# for the tries with 4 workers.
set -eu
cd "$(dirname "$0")/../.."
skip() {
    echo "mount/mount: not tried: $1" >&2
    exit 77
}
[ "$(id -u)" -eq 0 ] || skip 'it wants root'
[ -c /dev/fuse ] || skip 'there is no /dev/fuse'
for it in cc python3 unshare flock timeout; do
    command -v "$it" > /dev/null || skip "there is no $it"
done
apart='unshare --mount --propagation private --pid --fork --kill-child --mount-proc'
$apart true 2> /dev/null || skip 'there can be no mount namespace here'
LOCKD=${LOCKD:-$PWD/crates/lockd/out/lockd}
export LOCKD
if [ ! -x "$LOCKD" ]; then
    (cd crates/lockd && rt run < stdin > /dev/null)
fi
if [ -z "${LOCKD_MOUNT:-}" ]; then
    programs/mount/build
    checked=programs/mount/out/lockd_mount_checked
    programs/mount/build "$checked" -g -fsanitize=address,undefined -fno-sanitize-recover=undefined 2> /dev/null || checked=
    [ -z "$checked" ] || LOCKD_MOUNT_CHECKED=$PWD/$checked
    export LOCKD_MOUNT_CHECKED="${LOCKD_MOUNT_CHECKED:-}"
fi
# What a try has left mounted is there as long as the namespace is.
work=$(mktemp -d "${TMPDIR:-/tmp}/try_mount.XXXXXX")
trap 'rm -rf "$work"' EXIT
# All processes are in a namespace of their own, so that none is left.
TRY_MOUNT_WORK=$work timeout -s KILL -k 1 7200 $apart python3 -B -m tests.mount.tries "$@" &
tries=$!
trap 'kill "$tries" 2> /dev/null; wait "$tries" || exit 1' HUP INT TERM
status=0
wait "$tries" || status=$?
[ "$status" -ne 137 ] || echo 'mount/mount: killed after 7200 seconds'
exit "$status"
