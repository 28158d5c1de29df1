#!/bin/bash
# Measures what `initd run` costs at work, with default pauses: entries that wait for each other, children that sleep,
# requests that come at once, requests while children die and are respawned, and rest with a bell.
# usage: bench/work.sh INITD TELINIT     (as `rt run` leaves them in crates/initd/out/initd, crates/telinit/out/telinit)
set -eu
initd=$(realpath "$1")
telinit=$(realpath "$2")
folder=$(mktemp -d)
cd "$folder"
trap 'kill $(jobs -p) 2>/dev/null || true; rm -r "$folder"' EXIT

# the milliseconds of processor time that a process has used, without its children
used() { awk -v hertz="$(getconf CLK_TCK)" '{ print ($14 + $15) * 1000 / hertz }' "/proc/$1/stat"; }

# ends init and its children
end() {
    kill -s STOP $pid
    children=$(pgrep -P $pid || true)
    kill -s KILL $pid
    wait $pid 2> /dev/null || true
    kill $children 2> /dev/null || true
}

# waits until the trace has this number of lines of this kind
heard() { grep -c "^$1" trace 2> /dev/null || true; }
until_heard() {
    until lines=$(heard "$1") && [ "${lines:-0}" -ge "$2" ]; do sleep 0.002; done
}

# the seconds since this time
since() { awk -v a="$1" -v b="$(date +%s.%N)" 'BEGIN { print b - a }'; }

# this number of requests, which concern no entry, in a single append to the channel
append() {
    "$telinit" --initctl one A 2> said.telinit
    for _ in $(seq 1 "$1"); do cat one; done > all
    rm one
    cat all >> initctl
}

for entries in 100 500; do
    rm -f initctl trace
    awk -v n="$entries" 'BEGIN { for (i = 0; i < n; i++) printf "%03x:3:wait:true\n", i }' > inittab
    echo "$entries entries that wait for the one before, each of them true"
    ( time "$initd" run --level 3 --drain > said 2>&1 ) 2>&1 | grep -e real -e user -e sys
done

rm -f initctl trace
awk 'BEGIN { for (i = 0; i < 500; i++) printf "%03x:3:once:sleep 60\n", i }' > inittab
"$initd" run --level 3 > said 2>&1 &
pid=$!
sleep 5
before=$(used $pid)
started=$(pgrep -c -P $pid)
sleep 10
echo "500 children that sleep: $(awk -v a="$before" -v b="$(used $pid)" 'BEGIN { print (b - a) / 10 }')" \
    "milliseconds a second, $started children before, $(pgrep -c -P $pid) after"
end

rm -f initctl trace
"$initd" run --level 3 --trace trace > said 2>&1 &
pid=$!
until_heard settle 1
before=$(used $pid)
begin=$(date +%s.%N)
"$telinit" -t 1 4
until_heard settle 2
echo "a level change that stops 500 children: settled after $(since "$begin") seconds," \
    "$(awk -v a="$before" -v b="$(used $pid)" 'BEGIN { print b - a }') milliseconds of init's own"
end

rm -f initctl trace
"$initd" run --level 4 --trace trace > said 2>&1 &
pid=$!
sleep 4
for number in 1 2 3 4 5; do
    begin=$(date +%s.%N)
    "$telinit" A
    until_heard 'got ' $number
    echo "a request to an idle init: heard after $(since "$begin") seconds"
    sleep 2.5
done
end

rm -f initctl trace
echo 's:3:once:sleep 60' > inittab
"$initd" run --level 3 --trace trace > said 2>&1 &
pid=$!
sleep 2
append 20000
begin=$(date +%s.%N)
until_heard 'got ' 20000
echo "20000 requests at once: heard in $(since "$begin") seconds," \
    "$(grep -c '^got ' trace) of them"
end

rm -f initctl trace
awk 'BEGIN { for (i = 0; i < 200; i++) printf "%03x:3:respawn:sleep 60\n", i }' > inittab
"$initd" run --level 3 --trace trace > said 2>&1 &
pid=$!
sleep 2
append 20000 &
for _ in $(seq 1 5); do
    pkill -P $pid sleep || true
    sleep 0.4
done
until_heard 'got ' 20000
sleep 2
end
echo "20000 requests while 200 children die five times: $(grep -c '^got ' trace) heard," \
    "$(grep -c '^birth ' trace) births, $("$initd" check trace)"

# the median of these numbers, one per line
middle() { sort -n | awk '{ it[NR] = $1 } END { print it[int((NR + 1) / 2)] }'; }

# at rest with ten children, with a bell and a brief trace
rm -f initctl trace
awk 'BEGIN { for (i = 0; i < 10; i++) printf "%03x:3:respawn:sleep 600\n", i }' > inittab
"$initd" run --level 3 --bell --trace trace --brief > said 2>&1 &
pid=$!
until_heard settle 1
sleep 5
before=$(used $pid)
sleep 20
echo "ten children at rest, with a bell: $(awk -v a="$before" -v b="$(used $pid)" 'BEGIN { print (b - a) / 20 }')" \
    "milliseconds a second"
for number in $(seq 1 15); do
    sleep 1.7
    begin=$(date +%s.%N)
    "$telinit" A
    until_heard 'got ' "$number"
    since "$begin"
done > heard
for number in $(seq 11 25); do
    sleep 2.3
    child=$(pgrep -P $pid sleep | head -1)
    begin=$(date +%s.%N)
    kill "$child"
    until_heard 'birth ' "$number"
    since "$begin"
done > respawned
end
echo "a request that is rung: heard after $(middle < heard) seconds at the middle;" \
    "a child that dies: respawned after $(middle < respawned)"
