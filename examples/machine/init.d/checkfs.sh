#!/bin/sh
### BEGIN INIT INFO
# Provides:          checkfs
# Required-Start:
# Required-Stop:
# Default-Start:     S
# Default-Stop:
# Short-Description: Check all filesystems.
### END INIT INFO
echo "checkfs.sh $1" >>run/notes
