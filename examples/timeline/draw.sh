#!/bin/sh
# Makes a trace from the script in this folder, and draws it.
cd "$(dirname "$0")" || exit 4
initd simulate inittab script >trace || exit
initview timeline --svg trace >timeline.svg
