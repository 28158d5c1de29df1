#!/bin/sh
# Makes the links in etc/rc?.d from the headers of the scripts in init.d: plan.sh FACILITY...
cd "$(dirname "$0")" || exit 4
rm -rf etc
mkdir etc && cp -r init.d etc/init.d && rclinks "$@" etc/init.d/* >etc/plan || exit
while read -r link target; do
    mkdir -p "etc/${link%/*}" && ln -s "$target" "etc/$link" || exit 4
done <etc/plan
