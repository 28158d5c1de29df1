#!/bin/sh
# Boots the machine in its own folder, runs telinit A, and shuts the machine down: run.sh FACILITY...
cd "$(dirname "$0")" || exit 4
./plan.sh "$@" || exit
rm -rf run && mkdir -m 700 run
# Its scripts may run killall5, which spares init only in their own session.
initd-entry --no-groups --stay -d run --pause 0.1 >run/log 2>&1 &
entry=$!
seen() { until grep -qs "$1" "$2"; do kill -s 0 "$entry" || exit 4; sleep 0.1; done; }
seen 'Runlevel 2 settled' run/log
telinit --initctl run/initctl A
seen '^birth 2 ' run/trace
# What telinit A started lives on in levels 0 to 9, and is stopped in S.
telinit --initctl run/initctl S
seen 'Runlevel S settled' run/log
kill "$entry"
wait "$entry" || exit
cat run/notes
initd check run/trace
