#!/bin/bash
# Measures what programs cost, in seconds of processor time: the least of nine runs unless stated otherwise, without the
# cost of starting the program.
#  - A line of a script for `initd simulate` and of its trace for `initd check`, with tables of 16, 512 and 4,096
#    respawn entries; the same if 4,096 children all end; 60 turns of `initd run` with 500 children that sleep (three
#    runs).
#  - 10,000,000 lines for `initd check` and `initview`, in one piece, in 10 and in 1,000 (one run each, and the memory).
#  - Growth: each of two sizes, and the exponent between them: 1 is linear, 2 quadratic.
# usage: bench/cost.sh [--growth] INITD INITVIEW RCLINKS     (as `rt run` leaves them in crates/initd/out/initd, ..;
# with --growth only the growth)
set -eu
alone=
if [ "${1-}" = --growth ]; then
    alone=yes
    shift
fi
initd=$(realpath "$1")
initview=$(realpath "$2")
rclinks=$(realpath "$3")
folder=$(mktemp -d)
trap 'rm -r "$folder"' EXIT
cd "$folder"
TIMEFORMAT='%3U %3S'

# may_end PROGRAM STATUS: init exits with status 3 after its turns, and a view of a trace or a table with a status that
# depends on its contents.
may_end() { [ "$2" = 3 ] || { [ "$1" = "$initview" ] && [ "$2" -le 4 ]; }; }
# spent RUNS COMMAND..: the least seconds of processor time of this number of runs
spent() {
    local runs=$1 run
    shift
    for ((run = 0; run < runs; run++)); do
        {
            time "$@" </dev/null >said 2>faults || may_end "$1" $? || {
                echo "failed: $*" >&3
                cat faults >&3
                exit 1
            }
        } 2>&1
    done 3>&2 | awk '{ print $1 + $2 }' | sort -g | head -n 1
}
# cost COMMAND..: the least of nine runs, without the cost of starting the program.
cost() { awk -v all="$(spent 9 "$@")" -v start="$(spent 9 "$1" --version)" 'BEGIN { print all - start }'; }
# each COST LINES: microseconds per line
each() { awk -v cost="$1" -v lines="$2" 'BEGIN { printf "%.3f microseconds a line\n", cost * 1e6 / lines }'; }
ids() { awk -v n="$1" -v behind="$2" 'BEGIN { for (i = 0; i < n; i++) printf "%08x%s\n", i, behind }'; }
births() { awk -v n="$1" 'BEGIN { print "clock 0"; for (i = 0; i < n; i++) printf "birth %08x %d\ntold %08x\n", i, 1000 + i, i }'; }
# rounds N LINES [FIRST]: looks at all of N children, from the first on, for this number of lines
rounds() {
    awk -v n="$1" -v most="$2" -v first="${3:-0}" 'BEGIN {
        do {
            print "nudge"
            for (i = first; i < n; i++) printf "still %08x\ntold %08x\n", i, i
            lines += 2 * (n - first) + 1
        } while (lines < most)
    }'
}
# ends N: N children end
ends() {
    awk -v n="$1" 'BEGIN {
        print "nudge"
        for (i = 0; i < n; i++) printf "death %d\nreaped %08x %d exit 0\ntold %08x\n", 1000 + i, i, 1000 + i, i
    }'
}
# five LINES: a trace of idle rounds with five children, a day for each 86,400 rounds
five() {
    awk -v most="$1" 'BEGIN {
        print "use 6\nid:3:initdefault:"
        for (i = 0; i < 5; i++) printf "c%d:3:respawn:x\n", i
        print "enter sysinit 5\nenter boot 5\nenter 3 5"
        for (i = 0; i < 5; i++) printf "ask c%d start\nbirth c%d %d\ntold c%d\n", i, i, 10 + i, i
        print "settle 3"
        for (lines = 26; lines + 17 <= most; lines += 17) {
            printf "clock %d\nnudge\n", lines / 17
            for (i = 0; i < 5; i++) printf "ask c%d look\nstill c%d\ntold c%d\n", i, i, i
        }
    }'
}
# pieces TRACE COUNT FOLDER: the trace in this number of pieces, with their list
pieces() {
    local number=1 part
    rm -rf "$3"
    mkdir "$3"
    split --numeric-suffixes=1 -a 4 -n "l/$2" "$1" "$3/part."
    echo '1 begun' >"$3/trace.0.pieces"
    for part in "$3"/part.*; do
        mv "$part" "$3/trace.$number"
        echo "$number $(wc -c <"$3/trace.$number") piece" >>"$3/trace.0.pieces"
        number=$((number + 1))
    done
    mv "$3/trace.$2" "$3/trace"
    sed -i '$d' "$3/trace.0.pieces"
}

traces() {
    local entries act
    for entries in 16 512 4096; do
        ids $entries :3:respawn:x >table
        { births $entries; rounds $entries $((200000 - 2 * entries)); } >script
        echo "$entries entries: simulate $(each "$(cost "$initd" simulate --level 3 table script)" "$(wc -l <script)")"
        "$initd" simulate --level 3 table script >trace
        echo "$entries entries: check $(each "$(cost "$initd" check trace)" "$(wc -l <trace)")"
    done
    for act in once respawn; do
        ids 4096 :3:$act:x >table
        { births 4096; ends 4096; } >script
        echo "4096 $act entries that all end: $(cost "$initd" simulate --level 3 table script) seconds"
    done
    awk 'BEGIN { for (i = 0; i < 500; i++) printf "%03x:3:once:sleep 30\n", i }' >inittab
    for act in '' --brief; do
        # shellcheck disable=SC2086
        echo "500 children, 60 turns $act: $(spent 3 "$initd" run --fresh --level 3 --turns 60 --pause 0.05 --trace whole $act) seconds"
        echo "its trace, $(wc -l <whole) lines: check $(cost "$initd" check whole) seconds"
        rm whole*
    done
}

measured() { /usr/bin/time -q -f '%U seconds of user time, %S of system time, %M KiB at most' "$@"; }
# For a trace that no init writes `status` exits with status 4.
viewed() { measured "$initview" "$@" || [ $? = 4 ]; }
longest() {
    local count
    five 10000000 >long
    echo "a trace of $(wc -l <long) lines, $(wc -c <long) bytes, is judged"
    measured "$initd" check long
    echo "it is viewed: status, status of an id, follow"
    viewed status long
    viewed status long c4
    measured "$initview" follow - <long
    for count in 10 1000; do
        pieces long $count in
        echo "in $count pieces it is judged, and viewed: status"
        measured "$initd" check --pieces in/trace
        viewed status in/trace
    done
    rm -r long in
}

# Growth. Each function creates its input in the given size, and sets `words`, the command that is measured.
simulated() { words=("$initd" simulate --level 3 table script); }
lint_faults() {
    awk -v n="$1" 'BEGIN { for (i = 0; i < n; i++) print "x" }' >table
    words=("$initview" lint table)
}
lint_actions() {
    ids "$1" :3:respwan:x >table
    words=("$initview" lint table)
}
born() {
    ids "$1" :3:respawn:x >table
    births "$1" >script
    "$initd" simulate --level 3 table script >trace
}
status_of_children() { born "$1"; words=("$initview" status trace); }
left_children() { born "$1"; words=("$initview" left trace); }
diff_of_children() {
    born "$1"
    ids "$1" :4:respawn:y >new
    words=("$initview" diff --trace trace table new)
}
chain() {
    ids "$1" :3:wait:x >table
    awk -v n="$1" 'BEGIN {
        print "clock 0"
        for (i = 0; i < n; i++)
            printf "birth %08x %d\ntold %08x\ndeath %d\nnudge\nreaped %08x %d exit 0\ntold %08x\n", i, 1000 + i, i, 1000 + i, i, 1000 + i, i
    }' >script
}
simulate_chain() { chain "$1"; simulated; }
check_chain() {
    chain "$1"
    "$initd" simulate --level 3 table script >trace
    words=("$initd" check trace)
}
waiting() {
    ids "$1" :3:wait:x >table
    printf 'clock 0\nbirth 00000000 9\ntold 00000000\n' >script
    "$initd" simulate --level 3 table script >trace
}
status_waiting() { waiting "$1"; words=("$initview" status trace); }
why_waiting() { waiting "$1"; words=("$initview" why "$(printf %08x $(($1 - 1)))" trace); }
lives() {
    awk -v n="$1" 'BEGIN {
        printf "use %d\n", n
        for (i = 0; i < n; i++) printf "%08x:3:respawn:x\n", i
        print "enter sysinit 5\nenter boot 5\nenter 3 5"
        number = 100
        for (life = 0; life < 10; life++) {
            printf "clock %d\nnudge\n", life * 20
            for (i = 0; i < n; i++) {
                printf "ask %08x start\nbirth %08x %d\ntold %08x\nask %08x look\n", i, i, number, i, i
                printf "death %d\nreaped %08x %d exit 0\ntold %08x\n", number, i, number, i
                number++
            }
        }
    }' >trace
}
timeline_lives() { lives "$1"; words=("$initview" timeline trace); }
status_lives() { lives "$1"; words=("$initview" status trace); }
stopped() {
    ids "$1" :3:respawn:x >table
    {
        births "$1"
        printf 'got level 4 5\nnotread\n'
        awk -v n="$1" 'BEGIN { for (i = 0; i < n; i++) printf "hit %08x\ntold %08x\n", i, i }'
        echo 'clock 1'
        awk -v n="$1" 'BEGIN {
            print "nudge"
            for (i = 0; i < n; i++) printf "death %d\nreaped %08x %d killed\ntold %08x\n", 1000 + i, i, 1000 + i, i
        }'
    } >script
}
simulate_stopped() { stopped "$1"; simulated; }
timeline_stopped() {
    stopped "$1"
    "$initd" simulate --level 3 table script >trace
    words=("$initview" timeline trace)
}
missed() {
    local round
    { ids $(($1 - 1)) :3:respawn:x; echo zzzz:3:respawn:x; } >table
    {
        births $(($1 - 1))
        printf 'birth zzzz 9\ntold zzzz\ngot reload\nuse %d\n' $(($1 - 1))
        ids $(($1 - 1)) :3:respawn:x
        printf 'miss zzzz\ntold zzzz\n'
        for round in 1 2 3 4 5 6 7 8 9 10; do
            printf 'nudge\nmiss zzzz\ntold zzzz\n'
            rounds $(($1 - 1)) 1 | tail -n +2
            printf 'still zzzz\ntold zzzz\n'
        done
    } >script
    simulated
}
# held N COUNT: twenty rounds with N children, in which the first COUNT entries are held
held() {
    local round
    ids "$1" :3:respawn:x >table
    {
        births "$1"
        for round in 0 1 2 3 4 5 6 7 8 9; do
            echo nudge
            awk -v n="$2" -v last=$((round == 9)) 'BEGIN {
                for (i = 0; i < n; i++) {
                    printf "death %d\nreaped %08x %d exit 1\ntold %08x\n", 1000 + i, i, 1000 + i, i
                    if (!last) printf "birth %08x %d\ntold %08x\n", i, 1000 + i, i
                }
            }'
            rounds "$1" 1 "$2" | tail -n +2
        done
        for round in 0 1 2 3 4 5 6 7 8 9; do rounds "$1" 1 "$2"; done
    } >script
    simulated
}
rest() { held "$1" 0; }
one_held() { held "$1" 1; }
two_held() { held "$1" 2; }
handed() {
    ids "$1" :3:respawn:x >table
    {
        births "$1"
        for _ in 1 2 3 4 5 6 7 8 9 10; do printf 'got reexec\nhanded whole\n'; done
    } >script
    simulated
}
reloads() {
    awk -v n="$1" 'BEGIN {
        print "use 1\na:3:respawn:x\nenter sysinit 5\nenter boot 5\nenter 3 5\nask a start\nbirth a 9\ntold a\nsettle 3"
        for (i = 0; i < n; i++) printf "clock %d\ngot reload\nuse 1\na:3:respawn:x\nsettle 3\nnudge\n", i
    }' >trace
    words=("$initview" timeline trace)
}
in_pieces() {
    five 128000 >whole
    pieces whole "$1" in
}
check_pieces() { in_pieces "$1"; words=("$initd" check --pieces in/trace); }
status_pieces() { in_pieces "$1"; words=("$initview" status in/trace); }
linked_again() {
    rm -rf init.d rc?.d
    mkdir init.d
    awk -v n="$1" 'BEGIN {
        for (i = 0; i < n; i++) {
            needs = i % 90 ? sprintf("s%04d", i - 1) : ""
            file = sprintf("init.d/s%04d", i)
            printf "#!/bin/sh\n### BEGIN INIT INFO\n# Provides: s%04d\n# Required-Start: %s\n# Required-Stop: %s\n", i, needs, needs > file
            printf "# Default-Start: 2 3 4 5\n# Default-Stop: 0 1 6\n# Short-Description: x\n### END INIT INFO\n" > file
            close(file)
        }
    }'
    chmod +x init.d/*
    words=("$rclinks" --write . init.d/*)
    "${words[@]}" >said
}
# grows WORDS FUNCTION SMALL LARGE
grows() {
    local words small large
    "$2" "$3"
    small=$(cost "${words[@]}")
    "$2" "$4"
    large=$(cost "${words[@]}")
    awk -v what="$1" -v n="$3" -v m="$4" -v a="$small" -v b="$large" 'BEGIN {
        exponent = a > 0 && b > 0 ? sprintf("%.1f", log(b / a) / log(m / n)) : "-"
        printf "| %s | %d, %d | %.3f, %.3f | %s |\n", what, n, m, a, b, exponent
    }'
}
# shellcheck disable=SC2016
growth() {
    printf '| What | Sizes | Seconds | Exponent |\n|---|---|---|---|\n'
    grows '`lint` of faulty lines' lint_faults 8000 32000
    grows '`lint` of unknown actions' lint_actions 8000 32000
    grows '`status` of living children' status_of_children 1024 4096
    grows '`left` of living children' left_children 1024 4096
    grows '`diff --trace` over living children' diff_of_children 1024 4096
    grows '`status` of a chain of waits' status_waiting 1024 4096
    grows '`why` of the last of a chain of waits' why_waiting 1024 4096
    grows '`status` of ids with ten lives each' status_lives 512 2048
    grows '`timeline` of ids with ten lives each' timeline_lives 512 2048
    grows '`timeline` of a level that stops all' timeline_stopped 1024 4096
    grows '`timeline` of reloads' reloads 4000 16000
    grows '`check --pieces` of pieces' check_pieces 250 1000
    grows '`status` of pieces' status_pieces 250 1000
    grows '`simulate`, twenty rounds over children' rest 1024 4096
    grows 'the same, one entry held' one_held 1024 4096
    grows 'the same, two held' two_held 1024 4096
    grows '`simulate` of a level that stops all' simulate_stopped 1024 4096
    grows '`simulate` of a signal that misses' missed 1024 4096
    grows '`simulate` of ten re-executions' handed 1024 4096
    grows '`simulate` of a chain of waits' simulate_chain 1024 4096
    grows '`check` of a chain of waits' check_chain 1024 4096
    grows '`rclinks --write` again, scripts' linked_again 750 3000
}

if [ -z "$alone" ]; then
    traces
    longest
fi
growth
