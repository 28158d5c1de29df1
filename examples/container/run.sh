#!/bin/sh
# Does what the image does, without an image: starts init in its own folder, restarts a service as `docker exec` would,
# and stops everything as `docker stop` would.
cd "$(dirname "$0")" || exit 4
rm -rf run && mkdir -m 700 run
initd-entry -g 5 -d run --stop-level 4 --pause 0.1 --verbose >run/log 2>&1 &
entry=$!
until grep -qs 'Runlevel 3 settled' run/log; do kill -s 0 "$entry" || exit 4; sleep 0.1; done
initd-service -d run restart web || exit 4
kill -s TERM "$entry"
wait "$entry"
status=$?
cat run/log
initd check run/trace || exit 4
exit "$status"
