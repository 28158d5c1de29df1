# Prints the part of a trace that the notes of the system contain too, in their words (notes.awk).

left > 0 {
    left--
    split($0, field, ":")
    process_of[field[1]] = substr($0, length(field[1] field[2] field[3]) + 4)
    next
}
$1 == "use" { left = $2; split("", process_of); next }
$1 == "ask" { asked[$2] = $3; next }
$1 == "birth" { child[$2] = $3; print "born", $3, words_of(process_of[$2]); next }
$1 == "still" { print "alive", child[$2]; next }
$1 == "reaped" { print "reaped", $3, ($4 == "exit" ? "exit " $5 : "killed"); next }
$1 == "hit" { print "sent", toupper(asked[$2]), child[$2]; next }
$1 == "miss" { print "missed", toupper(asked[$2]), child[$2]; next }
$1 == "got" { print }
