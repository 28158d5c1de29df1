#!/bin/bash
# Compares `initd run`, alone, with --bell, and with --bell and --watch, with other inits and supervisors, each as the
# first process of its own namespace, with the same programs: the minimum and the median of some runs, made in rotation.
# Children are read from /proc, so that nothing is started in addition to what is measured. It needs root, for
# unshare(1) and chroot(1).
# usage: bench/peers.sh [-n ROUNDS] INITD TELINIT [FOLDER]     (as `rt run` leaves them in crates/initd/out/initd, ..;
# the default is three rounds) FOLDER has Debian's packages busybox-static, sysvinit-core, runit and s6 unpacked, with
# the libraries of s6; otherwise they are fetched by apt-get(8). Those that are not available are omitted, and reported
set -eu
rounds=3
if [ "${1-}" = -n ]; then
    rounds=$2
    shift 2
fi
initd=$(realpath "$1")
telinit=$(realpath "$2")
own=$(mktemp -d)
trap 'ended 2>/dev/null; rm -rf "$own"' EXIT
first=
ended() {
    [ -z "$first" ] || kill -s KILL "$first"
    first=
}

peers=${3:-}
fetched() { (cd "$own" && apt-get download -q "$@") >>"$own/said" 2>&1; }
if [ -z "$peers" ]; then
    peers=$own/peers
    mkdir "$peers"
    fetched busybox-static || apt-get update -q >>"$own/said" 2>&1 || true
    for package in busybox-static sysvinit-core runit s6 \
        $(apt-cache depends s6 2>/dev/null | sed -n 's/^ *Depends: \(lib[a-z]*[0-9.-]*\)$/\1/p' | grep -v '^libc'); do
        fetched "$package" || true
        for archive in "$own/${package}_"*.deb /var/cache/apt/archives/"${package}_"*.deb; do
            [ ! -f "$archive" ] || dpkg-deb -x "$archive" "$peers"
        done
    done
fi
busybox=$peers/bin/busybox
[ -x "$busybox" ] || {
    echo "busybox can't be had here: without its programs nothing is compared" >&2
    exit 1
}
inits="initd bell watch busybox"
helper=$(command -v waitpid || command -v perl) || {
    echo "neither waitpid nor perl is in PATH: --watch is omitted" >&2
    inits="initd bell busybox"
}
for peer in sysvinit:sbin/init runit:usr/bin/runsvdir s6:usr/bin/s6-svscan; do
    if [ -x "$peers/${peer#*:}" ]; then
        inits="$inits ${peer%%:*}"
    else
        echo "${peer%%:*} can't be had here: it is left out" >&2
    fi
done

# A root for each: the programs of busybox, the libraries that it needs, and a console that accepts everything.
libraries=$peers/lib/x86_64-linux-gnu:$peers/usr/lib/x86_64-linux-gnu
put() {
    local root=$1 name=$3 file
    cp "$2" "$root/bin/$name"
    for file in $(LD_LIBRARY_PATH=$libraries ldd "$2" 2>/dev/null | grep -o '/[^ ]*'); do
        case $file in
        */ld-linux*) cp -L "$file" "$root/lib64/" ;;
        *) cp -L "$file" "$root/lib/x86_64-linux-gnu/" ;;
        esac
    done
}
rooted() {
    local root=$own/$1 program
    mkdir -p "$root"/{bin,etc,dev,run,proc,tmp,service,lib/x86_64-linux-gnu,lib64}
    ln -s . "$root/usr"
    cp "$busybox" "$root/bin/"
    for program in sh true sleep touch mkfifo kill; do ln -sf busybox "$root/bin/$program"; done
    mknod -m 666 "$root/dev/null" c 1 3
    mknod -m 666 "$root/dev/console" c 1 3
    case $1 in
    initd | bell) put "$root" "$initd" init ;;
    watch)
        put "$root" "$initd" init
        put "$root" "$helper" "${helper##*/}"
        ;;
    busybox) ln -sf busybox "$root/bin/init" ;;
    sysvinit)
        put "$root" "$peers/sbin/init" init
        ln -sf init "$root/bin/telinit"
        ;;
    runit) for program in runsvdir runsv; do put "$root" "$peers/usr/bin/$program" "$program"; done ;;
    s6) for program in s6-svscan s6-supervise; do put "$root" "$peers/usr/bin/$program" "$program"; done ;;
    esac
}
for init in $inits; do rooted "$init"; done

# head_of INIT, entry INIT NUMBER ACTION PROCESS: lines of its inittab, in level 3; for a supervisor the folder of a
# service. busybox takes two lines with the same process for one.
head_of() {
    rm -rf "$own/$1"/service/*
    case $1 in
    busybox | runit | s6) ;;
    *) echo id:3:initdefault: ;;
    esac
}
entry() {
    case $1 in
    busybox) echo "::$3:$4" ;;
    runit | s6)
        mkdir "$own/$1/service/$2"
        printf '#!/bin/sh\nexec %s\n' "$4" >"$own/$1/service/$2/run"
        chmod +x "$own/$1/service/$2/run"
        ;;
    *) printf '%03x:3:%s:%s\n' "$2" "$3" "$4" ;;
    esac
}
# sleepers INIT COUNT ACTION: its inittab with this number of entries that sleep
sleepers() {
    local number
    head_of "$1"
    for ((number = 1; number <= $2; number++)); do entry "$1" $number "$3" "/bin/sleep $((600 + number))"; done
}

# kids PID: sets `kids` to the children of a process
kids() {
    kids=()
    read -ra kids <"/proc/$1/task/$1/children" || true
} 2>/dev/null
# part_helpers: moves from `kids` to `helpers` what watches the others.
part_helpers() {
    local child name of=()
    helpers=()
    for child in "${kids[@]}"; do
        read -r name <"/proc/$child/comm" || continue
        case $name in
        sh | perl | waitpid) helpers+=("$child") ;;
        *) of+=("$child") ;;
        esac
    done
    kids=("${of[@]}")
} 2>/dev/null
# services INIT: sets `kids` to the processes of its entries: a supervisor has a helper for each.
services() {
    local helper of=()
    kids "$first"
    case $1 in
    runit | s6)
        for helper in "${kids[@]}"; do
            kids "$helper"
            of+=("${kids[@]}")
        done
        kids=("${of[@]}")
        ;;
    watch) part_helpers ;;
    esac
}
mkfifo "$own/never"
exec {never}<>"$own/never"
pause() { read -rt 0.0005 -u "$never" || true; }
# until_so COMMAND..: waits until it succeeds, at most a minute.
until_so() {
    local limit=$((SECONDS + 60))
    until "$@"; do
        [ $SECONDS -lt $limit ] || {
            echo "waited for a minute: $*" >&2
            cat "$own/said" >&2
            exit 1
        }
        pause
    done
}
has_first() {
    kids "$space"
    [ ${#kids[@]} -gt 0 ]
}
has() {
    services "$1"
    [ ${#kids[@]} -ge "$2" ]
}
has_none() {
    services "$1"
    [ ${#kids[@]} = 0 ]
}
# replaced INIT COUNT PID: it has this number of children, and not this one
replaced() {
    has "$1" "$2" && [[ " ${kids[*]} " != *" $3 "* ]]
}

# begun INIT: starts it and sets `first` to the number of its first process.
begun() {
    local root=$own/$1 words
    rm -rf "$root"/tmp/* "$root"/run/*
    case $1 in
    initd | bell | watch) words=(init run --inittab /etc/inittab --initctl /run/ctl --state /run/state --level 3 --forever) ;;
    runit) words=(runsvdir -P /service) ;;
    s6) words=(s6-svscan -c 1000 /service) ;;
    *) words=(init) ;;
    esac
    [ "$1" != bell ] || words+=(--bell)
    [ "$1" != watch ] || words+=(--bell --watch)
    PATH=/bin:/usr/bin:/sbin:/usr/sbin unshare --pid --mount --fork --kill-child \
        chroot "$root" "/bin/${words[0]}" "${words[@]:1}" </dev/null >"$own/said" 2>&1 &
    space=$!
    until_so has_first
    first=${kids[0]}
}
over() {
    ended
    wait "$space" 2>/dev/null || true
}
now() { begin=${EPOCHREALTIME/./}; }
since() { awk -v a="$begin" -v b="${EPOCHREALTIME/./}" 'BEGIN { print (b - a) / 1000 }'; }
# processes INIT: sets `kids` to init's own process and those of a supervisor's helpers
processes() {
    case $1 in
    runit | s6) kids "$first" ;;
    watch)
        kids "$first"
        part_helpers
        kids=("${helpers[@]}")
        ;;
    *) kids=() ;;
    esac
    kids+=("$first")
}
# used INIT: their milliseconds of processor time
used() {
    local process
    processes "$1"
    for process in "${kids[@]}"; do cat "/proc/$process/schedstat"; done | awk '{ sum += $1 } END { print sum / 1e6 }'
}
# switches INIT: how often they gave up the processor, each of which was a wake-up
switches() {
    local process
    processes "$1"
    for process in "${kids[@]}"; do cat "/proc/$process/status"; done | awk '/^voluntary_ctxt/ { sum += $2 } END { print sum }'
}
more_than() { awk -v a="$1" -v b="$2" 'BEGIN { print b - a }'; }

# Each measure prints its number for one init, or - if the init has no such feature.
chain() {
    case $1 in runit | s6) echo - && return ;; esac
    {
        head_of "$1"
        for n in $(seq 100); do entry "$1" "$n" wait "/bin/true $n"; done
        entry "$1" 999 wait "/bin/touch /tmp/done"
        entry "$1" 1000 respawn "/bin/sleep 600"
    } >"$own/$1/etc/inittab"
    now
    begun "$1"
    until_so test -e "$own/$1/tmp/done"
    since
    over
}
starts() {
    sleepers "$1" 500 once >"$own/$1/etc/inittab"
    now
    begun "$1"
    until_so has "$1" 500
    since
    sleep 0.5
    used "$1" >"$own/cpu"
    over
}
starts_cpu() {
    starts "$1" >/dev/null
    cat "$own/cpu"
}
# rests INIT COUNT: at rest with this number of children
rests() {
    sleepers "$1" "$2" respawn >"$own/$1/etc/inittab"
    begun "$1"
    until_so has "$1" "$2"
    sleep 3
}
idle() {
    rests "$1" 10
    sleep 12
    local before woken
    before=$(used "$1")
    woken=$(switches "$1")
    sleep 10
    awk -v a="$before" -v b="$(used "$1")" 'BEGIN { print (b - a) / 10 }'
    more_than "$woken" "$(switches "$1")" >>"$own/$1.woken"
    over
}
# What `idle` has counted.
idle_switches() {
    head -n 1 "$own/$1.woken"
    sed -i 1d "$own/$1.woken"
}
respawn() {
    rests "$1" "$2"
    services "$1"
    local gone=${kids[4]}
    now
    kill -s KILL "$gone"
    until_so replaced "$1" "$2" "$gone"
    since
    over
}
respawn_10() { respawn "$1" 10; }
respawn_500() { respawn "$1" 500; }
# asked INIT: asks it to go to level 4
asked() {
    case $1 in
    initd | bell | watch) "$telinit" --initctl "$own/$1/run/ctl" -t 1 4 ;;
    sysvinit) chroot "$own/sysvinit" /bin/telinit -t 1 4 ;;
    esac
}
# A level in which nothing runs, after one with this number of children.
stopped() {
    case $1 in busybox | runit | s6) echo - | tee "$own/cpu" && return ;; esac
    rests "$1" "$2"
    local before
    before=$(used "$1")
    now
    asked "$1"
    until_so has_none "$1"
    since
    sleep 0.5
    more_than "$before" "$(used "$1")" >"$own/cpu"
    over
}
stops_10() { stopped "$1" 10; }
stops_500() { stopped "$1" 500; }
stops_cpu() {
    stops_500 "$1" >/dev/null
    cat "$own/cpu"
}
memory() {
    rests "$1" 10
    local process
    processes "$1"
    for process in "${kids[@]}"; do cat "/proc/$process/smaps_rollup"; done | awk '/^Pss:/ { sum += $2 } END { print sum }'
    over
}

# the minimum and the median of the numbers, one per line
summed() { sort -n | awk '{ it[NR] = $1 } END { print it[1] == "-" ? "-" : it[1] "/" it[int((NR + 1) / 2)] }'; }
measured() {
    local what=$1 measure=$2 round
    for init in $inits; do : >"$own/$init.numbers"; done
    for ((round = 0; round < rounds; round++)); do
        for init in $inits; do "$measure" "$init" >>"$own/$init.numbers"; done
    done
    printf '| %s |' "$what"
    for init in $inits; do printf ' %s |' "$(summed <"$own/$init.numbers")"; done
    echo
}

echo "load $(cut -d ' ' -f 1-3 /proc/loadavg)"
printf '| Least/middle of %d |' "$rounds"
for init in $inits; do printf ' %s |' "$(sed 's/bell/with --bell/; s/watch/with --bell and --watch/' <<<"$init")"; done
printf '\n|---|'
for init in $inits; do printf '%s|' ---; done
echo
measured 'a chain of 100 waits, milliseconds' chain
measured '500 started, milliseconds' starts
measured '500 started, milliseconds of processor time' starts_cpu
measured 'at rest over 10 children, milliseconds a second' idle
measured 'wake-ups in those 10 seconds' idle_switches
measured 'a child that dies at rest over 10 is respawned, milliseconds' respawn_10
measured 'a child that dies at rest over 500 is respawned, milliseconds' respawn_500
measured 'a level that stops 10, milliseconds' stops_10
measured 'a level that stops 500, milliseconds' stops_500
measured 'a level that stops 500, milliseconds of processor time' stops_cpu
measured 'memory over 10 children, kB, each shared page in parts' memory
echo "load $(cut -d ' ' -f 1-3 /proc/loadavg)"
