# Makes a trace from the notes of the system (notes.awk), with the entries of the file `inittab`, and from the lines
# that init prints, those of initd or of sysvinit. Times are rounded down, that of a KILL up, because init reads its
# clock in whole seconds too.

function is_action(word) {
    return word ~ /^(sysinit|boot|bootwait|initdefault|respawn|wait|once|off|ondemand|ctrlaltdel|kbrequest)$/ ||
        word ~ /^power(wait|fail|failnow|okwait)$/
}
function clock(second) {
    if (second != now) print "clock", now = second
}
function down(moment) { sub(/\..*/, "", moment); return moment }
END {
    while ((getline line <inittab) > 0) {
        sub(/^[ \t]+/, "", line)
        if (line ~ /^#/ || line == "") continue
        split(line, field, ":")
        if (!is_action(field[3])) continue
        entry[++entries] = line
        process = substr(line, length(field[1] field[2] field[3]) + 4)
        if (words_of(process) in id_of && process != "") {
            print "witness: " id_of[words_of(process)] " and " field[1] " have one command: give each its own" >"/dev/stderr"
            failed = 1
        }
        id_of[words_of(process)] = field[1]
        action_of[field[1]] = field[3]
    }
    if (failed) exit 1
    grace = 5
    if (program != "") grace = 3
    for (i = 1; i <= events; i++) {
        child = of[i]
        if (kind[i] == "opened") use()
        else if (kind[i] == "announced") announced(with[i], at[i])
        else if (kind[i] == "got") {
            print "got", with[i]
            if (with[i] ~ /^level/) grace = substr(with[i], 9)
        } else if (!is_born(child) || !(child in runs) || !is_of_init(i)) continue
        else if (kind[i] == "born") {
            clock(down(at[i]))
            id[child] = id_of[argv[child]]
            begin_boot(action_of[id[child]])
            print "ask", id[child], "start"
            print "birth", id[child], child
            print "told", id[child]
        } else if (kind[i] == "died") print "death", child
        else if (kind[i] == "reaped") {
            print "ask", id[child], "look"
            print "reaped", id[child], child, with[i]
            print "told", id[child]
        } else if (kind[i] == "sent") {
            clock(down(at[i]) + (with[i] == "KILL"))
            print "ask", id[child], tolower(with[i])
            print "hit", id[child]
            print "told", id[child]
        }
    }
}
function use(    i) {
    print "use", entries
    for (i = 1; i <= entries; i++) print written(entry[i])
}
function announced(line, moment,    field) {
    if (line ~ /^INIT: Entering stage /) { split(line, field, " "); enter(field[4]) }
    else if (line ~ /^INIT: (Entering|Switching to) runlevel: /) { sub(/.*: /, "", line); enter(line) }
    # The messages of sysvinit.
    else if (line ~ /^INIT: version .* booting/) enter("sysinit")
    else if (line ~ /^INIT: version .* reloading/) return
    else if (line ~ /^INIT: Runlevel . settled/) { split(line, field, " "); print "settle", field[3] }
    else if (line ~ /^INIT: Id ".*" respawning too fast/) {
        split(line, field, "\"")
        clock(down(moment))
        print "hold", field[2]
    }
}
function enter(name) {
    stage = name
    print "enter", stage, grace
}
# An init that does not announce it begins Boot with its first boot entry.
function begin_boot(action) {
    if (stage == "sysinit" && action ~ /^(boot|bootwait)$/) enter("boot")
}
# The entry as a trace has it: its levels in order, or all ten if none is named and its action depends on levels.
function written(line,    field, levels, i, mark, process) {
    split(line, field, ":")
    process = substr(line, length(field[1] field[2] field[3]) + 4)
    levels = ""
    if (field[3] !~ /^(sysinit|boot|bootwait)$/) {
        for (i = 1; i <= 14; i++) {
            mark = substr("0123456789SABC", i, 1)
            if (index(toupper(field[2]), mark) || field[2] == "" && i <= 10) levels = levels mark
        }
    }
    return field[1] ":" levels ":" field[3] ":" (field[3] == "initdefault" ? "" : process)
}
