# Judges two laws by what strace -f -ttt recorded of a run of init, which is the first process:
#   1. init waits for and signals only children that it started and has not reaped;
#   2. each SIGKILL that init sends follows a SIGTERM that reached the process at least `grace` seconds earlier, with no
#      SIGKILL in between. Init's clock has whole seconds, so one second less counts as enough here.
# Init signals by itself, and by a shell that reads lines "SIGNAL NUMBER"; strace shows the calls of both. Prints each
# breach with its line, and then what was judged; the exit status is 1 if there was a breach.

function breach(why) {
    print "line " FNR ": " why ": " call
    breaches++
}
# The first number among the arguments of the call.
function first_number(    rest) {
    rest = call
    sub(/^[a-z0-9_]+\(/, "", rest)
    return rest + 0
}
function result(    rest) {
    rest = call
    sub(/^.* = /, "", rest)
    return rest + 0
}
function is_child(number) { return number > 0 && number in started }
function waited(number) {
    waits++
    if (!is_child(number)) breach("init waits for a process that is not its unreaped child")
    if (result() == number && number > 0) {
        delete started[number]
        reaped++
    }
}
function signalled(number, signal,    target) {
    target = number < 0 ? -number : number
    if (signal == "0") return
    signals++
    if (!is_child(target)) breach("init signals a process that is not its unreaped child")
    if (signal == "SIGKILL") {
        kills++
        if (!(target in warned) || time - warned[target] <= grace - 1)
            breach("SIGKILL without a SIGTERM " grace " seconds earlier")
        if (result() == 0) delete warned[target]
    } else if (signal == "SIGTERM" && result() == 0) {
        if (!(target in warned)) warned[target] = time
    }
}
{
    process = $1
    time = $2
    call = $0
    sub(/^[0-9]+ +[0-9.]+ /, "", call)
    if (init == "") init = process
}
# strace cuts a call in two if another process runs before it returns.
call ~ / <unfinished \.\.\.>$/ {
    sub(/ <unfinished \.\.\.>$/, "", call)
    begun[process] = call
    next
}
call ~ /^<\.\.\. / {
    sub(/^<\.\.\. [a-z0-9_]+ resumed>/, "", call)
    call = begun[process] call
}
call ~ /^execve\(.*while read -r signal number/ { is_sender[process] = 1 }
process == init && call ~ /^(clone|clone3|fork|vfork)\(.* = [0-9]+$/ {
    number = result()
    if (is_child(number)) breach("the system returned the number of an unreaped child")
    started[number] = 1
    delete warned[number]
    starts++
}
process == init && call ~ /^wait4\(/ { waited(first_number()) }
(process == init || process in is_sender) && call ~ /^kill\(/ {
    split(call, part, /[(), ]+/)
    signalled(part[2] + 0, part[3])
}
END {
    print starts + 0 " starts, " waits + 0 " waits, " reaped + 0 " ends, " signals + 0 " signals, " kills + 0 " SIGKILL"
    exit breaches > 0
}
