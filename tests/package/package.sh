#!/bin/sh
# Makes the package, has lintian judge it, and tries it in a root folder of its own, which has this machine's /usr below an overlay, and
# neither this repository nor the toolchain: what README.md says in "Try it", mount(8), a line of fstab, what a unit of systemd starts,
# an upgrade while a lock is held; and that nothing is left when it is removed. Then dist/install. Prints a line for each that goes
# wrong, for each warning of lintian, and if lintian isn't installed; then `N passed, M failed`. The status is 0 if none failed, and 77,
# with a line, if something is missing that it needs: root, /dev/fuse, a right to mount, overlays, a C compiler, Python 3.9, or a program
# of Debian. It takes some forty seconds, and is killed after 1800.
#
#     tests/run package/package [--systemd] [-v]
#
# --systemd also boots systemd in the root folder, which starts the units; the gate doesn't. -v names what passes.
# LOCKD and LOCKD_MOUNT name other programs, as for dist/install.
set -eu
cd "$(dirname "$0")/../.."
skip() {
    echo "package/package: not tried: $1" >&2
    exit 77
}
[ "$(id -u)" -eq 0 ] || skip 'it needs root'
[ -c /dev/fuse ] || skip 'there is no /dev/fuse'
for it in cc python3 unshare chroot timeout dpkg dpkg-deb dpkg-query readelf strip flock pkill; do
    command -v "$it" > /dev/null || skip "there is no $it"
done
dpkg-query -W libc6 > /dev/null 2>&1 || skip 'the C library is no package of Debian here'
[ ! -e /usr/bin/lockd ] || skip 'lockd is installed here'
apart='unshare --mount --propagation private --pid --fork --kill-child --mount-proc'
$apart true 2> /dev/null || skip 'there can be no mount namespace here'
LOCKD=${LOCKD:-$PWD/crates/lockd/out/lockd}
export LOCKD
[ -x "$LOCKD" ] || skip "there is no program at $LOCKD"
[ -n "${LOCKD_MOUNT:-}" ] || programs/mount/build
work=$(mktemp -d)
trap 'rm -rf "$work"' EXIT
trap 'exit 1' HUP INT TERM
status=0
TRY_PACKAGE_WORK=$work timeout -s KILL 1800 $apart python3 -B -m tests.package.tries "$@" || status=$?
[ "$status" -ne 137 ] || echo 'package/package: killed after 1800 seconds'
exit "$status"
