#!/bin/bash
# Tests whether a long run stays lawful and small: 50 services, of which one dies each second, requests all the time,
# 10,000 in three hours, the trace put away at each half mebibyte, and each happening judged. It prints init's memory
# after the first minute and at the end, its processor time, and the verdicts of the run and of all pieces of its trace
# together.
# usage: bench/long.sh INITD TELINIT [SECONDS]     (as `rt run` leaves them; the default is three hours)
set -eu
initd=$(realpath "$1")
telinit=$(realpath "$2")
seconds=${3:-10800}
requests=$((seconds * 10000 / 10800))
first=$((seconds < 120 ? seconds / 2 : 60))
folder=$(mktemp -d)
cd "$folder"
trap 'kill $(jobs -p) 2> /dev/null || true; rm -r "$folder"' EXIT

# init's memory in kilobytes, and the seconds of processor time that it has used, without its children
memory() { awk '$1 == "VmRSS:" { print $2 }' "/proc/$pid/status"; }
used() { awk -v hertz="$(getconf CLK_TCK)" '{ print ($14 + $15) / hertz }' "/proc/$pid/stat"; }

ask() { "$telinit" --initctl initctl "$@" 2> said.telinit; }

# the next request: mostly a letter of no entry, sometimes reading inittab again, a re-execution, another level and back
request() {
    case $((sent % 100)) in
    50) ask 4 ;;
    51) ask 3 ;;
    25 | 75) ask u ;;
    *0) ask q ;;
    *) ask A ;;
    esac
    sent=$((sent + 1))
}

echo 'id:3:initdefault:' > inittab
for number in $(seq 50); do echo "s$number:3:respawn:sleep 100000"; done >> inittab
# Level 4 has one, so that the run is not drained there.
sed -i s/^s50:3/s50:34/ inittab
"$initd" run --forever --fresh --drain --judge --brief --trace trace --trace-size 512K > said 2> told &
pid=$!
until grep -q 'Runlevel 3 settled' said; do sleep 0.1; done

begin=$(date +%s)
sent=0
deaths=0
early=
while now=$(($(date +%s) - begin)) && [ "$now" -lt "$seconds" ]; do
    if [ -z "$early" ] && [ "$now" -ge "$first" ]; then early=$(memory); fi
    if kill -s KILL "$(pgrep -P "$pid" sleep | shuf -n 1)" 2> /dev/null; then deaths=$((deaths + 1)); fi
    until [ "$sent" -ge $((requests * (now + 1) / seconds)) ]; do request; done
    sleep 1
done
until [ "$sent" -ge "$requests" ]; do request; done
ask 3
sleep 2
echo "$seconds seconds: $deaths deaths, $sent requests, $(find . -name 'trace*' | wc -l) pieces of a trace"
echo "memory: $early kB after $first seconds, $(memory) kB at the end; processor time: $(used) seconds"
ask 0
wait "$pid" || echo "the run ended with $?"
grep -e lawful told
echo "all pieces: $("$initd" check --pieces trace 2> judged), $(cat judged)"
