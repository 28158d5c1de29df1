#!/bin/sh
# Runs the rig in its own folder, and exits with the status of the tests: 137 if they were killed, 4 if they never ended
# or the trace isn't lawful, and 5 if they passed, but a service died. SIGTERM or SIGINT stops the services, then db.
cd "$(dirname "$0")" || exit 4
rm -rf run
initd-entry -g 10 -d run --stop-level 4 --trace run/trace --pause 0.05 --result t --no-deaths &
entry=$!
trap 'kill -s TERM "$entry"' TERM INT
wait "$entry"
status=$?
trap '' TERM INT
wait "$entry" 2>/dev/null
initd check run/trace || exit 4
exit "$status"
