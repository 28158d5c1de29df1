#!/bin/bash
# Measures what the gate costs, in processor seconds: runs `rt ci` here with the given arguments, or from nothing, looks
# each second at the processes of that run only, and prints the table of bench/gate.md. The output of the run goes to
# standard error.
# usage: bench/gate.sh [WORD..]
set -u
cd "$(dirname "$0")/.." || exit 1
# A kit that keeps what passed is asked to prove it again; a kit without this option keeps nothing.
if [ $# -eq 0 ] && rt help 2>&1 | grep -q -e '--anew'; then
    set -- --anew
fi
said=$(mktemp) || exit 1
trap 'rm -f "$said"' EXIT

# The run has its own session, by which its processes are recognized.
setsid rt ci "$@" >"$said" 2>&1 </dev/null &
run=$!
trap 'kill -s TERM -- "-$run" 2>/dev/null' TERM INT HUP

declare -A used part
# kind_of PROCESS PARENT: what a process works for, a column and a crate, according to its arguments, or as its parent
# does.
kind_of() {
    local words folder crate kind
    words=$(tr '\0' ' ' <"/proc/$1/cmdline") 2>/dev/null
    crate=${words#* --crate-name }
    case $words in
    *rattle*' --crate-name '*)
        folder=$(readlink "/proc/$1/cwd")
        case $folder:$words in
        *rt-edit*) kind=wrong ;;
        *' --test '*) kind=tests ;;
        *) kind=proofs ;;
        esac
        echo "$kind ${crate%% *}"
        ;;
    *'_tests '*) echo "tests $(basename "${words%%_tests *}")" ;;
    '') ;;
    *) echo "${part[$2]-other other}" ;;
    esac
}
look() {
    local file line number
    for file in /proc/[0-9]*/stat; do
        { read -r line <"$file"; } 2>/dev/null || continue
        number=${line%% *}
        # shellcheck disable=SC2086
        set -- ${line##*) }
        [ "$4" = "$run" ] || continue
        [ -n "${part[$number]-}" ] || part[$number]=$(kind_of "$number" "$2")
        used["$number ${20} ${part[$number]:-other other}"]=$((${12} + ${13}))
    done
}
start=$SECONDS
while kill -0 "$run" 2>/dev/null; do
    look 2>/dev/null
    sleep 1
done
wait "$run"
status=$?
cat "$said" >&2

for key in "${!used[@]}"; do
    echo "$key ${used[$key]}"
done | awk -v hertz="$(getconf CLK_TCK)" -v minutes=$(((SECONDS - start) / 60)) '
    FILENAME == "-" {
        seconds[$3, $4] += $5 / hertz
        all[$3] += $5 / hertz
        next
    }
    /^[a-z]/ { crates[++count] = substr($1, 1, index($1, ":") - 1) }
    function cell(kind, crate) {
        return (kind, crate) in seconds ? sprintf("%.0f", seconds[kind, crate]) : ""
    }
    function edits(crate,    list, number, name) {
        list = "ls crates/" crate "/must-fail"
        while ((list | getline name) > 0) number++
        close(list)
        return number
    }
    END {
        print "| Crate | Proofs | Tests | Wrong bodies |"
        print "|---|---|---|---|"
        for (i = 1; i <= count; i++) {
            crate = crates[i]
            proofs = cell("proofs", crate)
            tests = cell("tests", crate)
            wrong = cell("wrong", crate)
            if (wrong != "") wrong = wrong " (" edits(crate) ")"
            if (proofs tests wrong != "")
                printf "| `%s` | %s | %s | %s |\n", crate, proofs, tests, wrong
        }
        printf "| all | %.0f | %.0f | %.0f |\n", all["proofs"], all["tests"], all["wrong"]
        total = all["proofs"] + all["tests"] + all["wrong"] + all["other"]
        printf "\n%.0f minutes of processor time in %d minutes.\n", total / 60, minutes
    }' - crates.txt
exit "$status"
