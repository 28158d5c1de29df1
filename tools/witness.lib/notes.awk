# Reads the notes of strace -f -ttt -xx on a run of init. Prints what init did, one line each:
#     born PID [WORD]..          a child that executes these words
#     alive PID                  a non-blocking wait found that it had not ended
#     reaped PID exit N, killed  its status
#     sent TERM PID              by init, or by the shell that it starts for the signals of a turn; or KILL
#     got ..                     a block of 384 bytes of the channel, as a trace has it
# With the variable `inittab` it prints nothing, and leaves these lines, with their times, for the file that is read
# next. Init is the first process, or with the variable `program` the first one that executes that program; the numbers
# of its children are then those that strace prints after the ones in their own namespace.

function digit(of) { return index("0123456789abcdef", of) - 1 }
function byte(digits) { return digit(substr(digits, 1, 1)) * 16 + digit(substr(digits, 2, 1)) }
# The text of "\x41\x42".
function text(quoted,    out, i) {
    out = ""
    for (i = 1; i + 3 <= length(quoted); i += 4)
        out = out sprintf("%c", byte(substr(quoted, i + 2, 2)))
    return out
}
# The words of an array of quoted words: `[one] [two]`.
function words(list,    out, parts, count, i) {
    count = split(list, parts, "\"")
    out = ""
    for (i = 2; i <= count; i += 2) out = out (out == "" ? "" : " ") "[" text(parts[i]) "]"
    return out
}
function note(what, child, more) {
    kind[++events] = what
    of[events] = child
    with[events] = more
    by[events] = process
    at[events] = time
}
# A number of four bytes, the least significant first, after this number of bytes of a block in hexadecimal.
function number(block, behind,    i, value) {
    value = 0
    for (i = 3; i >= 0; i--) {
        value = value * 256 + byte(substr(block, (behind + i) * 2 + 1, 2))
    }
    return value
}
function character(code) { return code > 0 && code < 128 ? sprintf("%c", code) : "" }
# The request of a block's four numbers (initreq.h).
function request(magic, command, level, seconds) {
    if (magic != 50927977) return "nothing 1"
    if (command == 2) return "power fail"
    if (command == 3) return "power failnow"
    if (command == 4) return "power ok"
    if (command != 1) return "nothing " (command ~ /^(0|5|6|7|12345)$/ ? 3 : 2)
    if (level ~ /^[Qq]$/) return "reload"
    if (level ~ /^[Uu]$/) return "reexec"
    if (level ~ /^[A-Ca-c]$/) return "call " toupper(level)
    if (level !~ /^[0-9Ss]$/) return "nothing 4"
    if (seconds >= 2147483648) seconds = 0
    return "level " toupper(level) " " (seconds > 3600 ? 3600 : seconds)
}
function take_bytes(quoted) {
    gsub(/\\x/, "", quoted)
    channel = channel quoted
    while (length(channel) >= 768) {
        block = substr(channel, 1, 768)
        channel = substr(channel, 769)
        note("got", "", request(number(block, 0), number(block, 4), character(number(block, 8)), number(block, 12)))
    }
}
# A line that init prints, which may come in pieces.
function announce(piece) {
    if (index(piece, "INIT: ")) announced_text = substr(piece, index(piece, "INIT: "))
    else if (announced_text != "") announced_text = announced_text piece
    if (index(announced_text, "\n")) {
        sub(/\r?\n.*/, "", announced_text)
        note("announced", "", announced_text)
        announced_text = ""
    }
}
# The number of the process that init calls by this number, if a comment after it or an earlier one has it.
function outside(process_number, comment) {
    if (match(comment, /^ *\/\* [0-9]+ in strace/)) {
        sub(/^[^0-9]*/, "", comment)
        number_of[process_number] = comment + 0
    }
    return process_number in number_of ? number_of[process_number] : process_number
}
function take(line,    name, result, parts, comment) {
    name = line
    sub(/\(.*/, "", name)
    result = line
    sub(/.*\) += /, "", result)
    comment = result
    sub(/ .*/, "", result)
    comment = substr(comment, length(result) + 1)
    if (name == "execve") {
        split(line, parts, /\], /)
        sub(/^execve\("[^"]*", \[/, "", parts[1])
        # The words that it is started with; what it executes later does not matter.
        if (!(process in runs)) argv[process] = words(parts[1])
        if (result == 0) runs[process] = 1
        split(line, parts, "\"")
        if (init == "" && result == 0 && text(parts[2]) == program) init = process
    } else if (name ~ /^(clone|clone3|fork|vfork)$/) {
        if (process == init && result > 0) note("born", outside(result, comment))
    } else if (process == init && name == "wait4") {
        split(line, parts, /[(,]/)
        ended = "killed"
        if (match(line, /WEXITSTATUS\(s\) == [0-9]+/)) ended = "exit " substr(line, RSTART + 18, RLENGTH - 18)
        if (result > 0) note("reaped", outside(result, comment), ended)
        else if (result == 0) note("alive", parts[2])
    } else if (name == "kill") {
        # To a process, or to the group that it leads.
        match(line, /SIG[A-Z0-9]+/)
        signal = substr(line, RSTART + 3, RLENGTH - 3)
        match(line, /[0-9]+/)
        child = outside(substr(line, RSTART, RLENGTH), substr(line, RSTART + RLENGTH))
        if (signal == "TERM" || signal == "KILL") note(result == 0 ? "sent" : "missed", child, signal)
    } else if (process == init && name == "openat") {
        split(line, parts, "\"")
        if (result >= 0 && text(parts[2]) ~ /(^|\/)initctl$/) is_channel[result] = 1
        if (result >= 0 && text(parts[2]) ~ /(^|\/)inittab$/) note("opened", "")
    } else if (process == init && name == "close") {
        split(line, parts, /[()]/)
        delete is_channel[parts[2]]
    } else if (process == init && name == "read") {
        split(line, parts, /[(,]/)
        if (parts[2] in is_channel && result > 0) {
            split(line, parts, "\"")
            take_bytes(parts[2])
        }
    } else if (process == init && name == "write") {
        split(line, parts, /[(,]/)
        if (parts[2] <= 2) {
            split(line, parts, "\"")
            announce(text(parts[2]))
        }
    }
}
{
    process = $1
    time = $2
    if (init == "" && program == "") init = process
    line = $0
    sub(/^[0-9]+ +[0-9.]+ /, "", line)
    if (line ~ /^\+\+\+ exited with /) { split(line, end, " "); note("died", process, "exit " end[4]); next }
    if (line ~ /^\+\+\+ killed by /) { note("died", process, "killed"); next }
    if (line ~ / <unfinished \.\.\.>$/) {
        sub(/ <unfinished \.\.\.>$/, "", line)
        begun[process] = line
        next
    }
    if (line ~ /^<\.\.\. [a-z0-9_]+ resumed>/) {
        sub(/^<\.\.\. [a-z0-9_]+ resumed>/, "", line)
        line = begun[process] line
    }
    if (line ~ /\) += /) take(line)
}
# The shells that look for kill(1), send the signals of a turn and watch children belong to init, and are not children of
# entries.
function is_helper(child) { return argv[child] ~ /^\[sh\] \[-c\] \[((true >\/dev\/null \|\| exit 2; )?command -v kill >|while read -r signal number group; do |LC_ALL=C; export LC_ALL; command -v waitpid >)/ }
function is_born(child) { return child in is_child && !is_helper(child) }
# A signal that a service sends is not one of init's.
function is_of_init(event) { return kind[event] !~ /^(sent|missed)$/ || by[event] == init || is_helper(by[event]) }
END {
    for (i = 1; i <= events; i++) {
        if (kind[i] == "born") is_child[of[i]] = 1
        if (kind[i] == "died") last[of[i]] = with[i]
    }
    if (inittab == "") print_all()
}
function print_all(    i) {
    for (i = 1; i <= events; i++) {
        if (kind[i] == "got") print "got", with[i]
        else if (!is_born(of[i]) || !is_of_init(i)) continue
        else if (!(of[i] in runs)) continue
        else if (kind[i] == "born") print "born", of[i], argv[of[i]]
        else if (kind[i] == "reaped") {
            print "reaped", of[i], with[i]
            # The end of the child must be what init was told.
            if (last[of[i]] != with[i]) print "but it ended with", last[of[i]]
        } else if (kind[i] == "alive") print "alive", of[i]
        else if (kind[i] == "sent" || kind[i] == "missed") print kind[i], with[i], of[i]
    }
}
