#!/bin/bash
# What systemd starts in the root folder of tests/package/package.sh --systemd, which compares what this writes: the units of the package are
# started, reloaded, and upgraded while a lock is held; a line of fstab; the package is removed while a file is open. The package is
# /srv/lockd.deb.
folder='/srv/my locks'
unit=lockd@$(systemd-escape -p "$folder").service

server() {
    pgrep -x -P "$(systemctl show -P MainPID "$unit")" lockd
}

# Waits for a server that isn't the one of this number. tests/package/package.sh ends a wait that doesn't end.
another_than() {
    until it=$(server) && [ "$it" != "$1" ]; do sleep 0.1; done
}

still() {
    flock -n "$folder/job" true && echo "$1: free" || echo "$1: held"
}

systemctl start lockd.service && flock /run/locks/job echo 'lockd.service: locked'
systemctl start "$unit" && flock "$folder/job" echo "$unit: locked"

mkfifo /root/end
flock "$folder/job" sh -c 'echo > /root/held; read -r it < /root/end' &
until [ -e /root/held ]; do sleep 0.1; done
first=$(server)
systemctl reload "$unit" && another_than "$first" && still 'after a reload'
second=$(server)
dpkg --force-unsafe-io -i /srv/lockd.deb > /dev/null && another_than "$second" && still 'after an upgrade'
echo > /root/end
wait
still 'at the end'

systemctl start 'srv-by\x20fstab.mount' && flock '/srv/by fstab/job' echo 'fstab: locked'
case " $(systemctl show -P RequiresMountsFor 'srv-by\x20fstab.mount') " in
    *' /var/lib '*) echo 'fstab: after /var/lib' ;;
esac
systemctl stop 'srv-by\x20fstab.mount' && echo 'fstab: unmounted'
systemctl -q enable lockd.service "$unit"
sleep 1000 9> "$folder/job" &
dpkg --force-unsafe-io -P lockd > /dev/null 2>&1 && echo removed
kill $!
grep -c fuse.lockd /proc/self/mountinfo
find /etc/systemd/system/multi-user.target.wants /var/lib/lockd -mindepth 1 2> /dev/null
systemctl exit --force --force
