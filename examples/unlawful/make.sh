#!/bin/sh
# Makes the two traces in this folder, of runs that the init of this repository never makes.
cd "$(dirname "$0")" || exit 4

# A run of `initd simulate`, followed by a second birth for an id that already has a child.
printf 'id:3:initdefault:\nr:3:respawn:serv\n' >inittab
printf '%s\n' 'birth r 10' 'told r' nudge 'still r' 'told r' >script
initd simulate inittab script >second-birth.trace || exit
printf '%s\n' 'ask r start' 'birth r 11' >>second-birth.trace
rm inittab script

# What sysvinit 3.06 did: the seconds at which it started an entry whose child first runs for 118 seconds, and then for
# 0.4 seconds each time, until sysvinit disabled the entry.
echo 0 118 118 118 119 119 120 120 120 121 121 122 122 122 123 | awk '
    function ended(child) {
        print "death " child "\nnudge\nask r look\nreaped r " child " exit 0\ntold r"
    }
    {
        print "use 2\nid:2:initdefault:\nr:2:respawn:/bin/ramp\nclock 0\nenter sysinit 3\nenter boot 3\nenter 2 3"
        for (start = 1; start <= NF; start++) {
            if (start > 1 && $start != $(start - 1)) print "clock " $start
            if (start > 1) ended(99 + start)
            print "ask r start\nbirth r " 100 + start "\ntold r"
            if (start == 1) print "settle 2"
        }
        ended(100 + NF)
        print "hold r"
    }' >sysvinit-respawn.trace
