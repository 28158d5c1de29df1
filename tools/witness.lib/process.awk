# The words with which a process text is started (inittab(5)), as `[one] [two]`: a shell executes it if it contains a
# character that the shell interprets, otherwise it is split into words. The variable `shell` is the path of the shell
# if it is not `sh`.
function words_of(process,    out, parts, count, i) {
    sub(/^\+/, "", process)
    if (process ~ /[]~`!$^&*()=|\\{}[;"'<>?]/) return "[" (shell == "" ? "sh" : shell) "] [-c] [exec " process "]"
    count = split(process, parts, /[ \t]+/)
    out = ""
    for (i = 1; i <= count; i++) if (parts[i] != "") out = out (out == "" ? "" : " ") "[" parts[i] "]"
    return out
}
