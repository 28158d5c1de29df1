# The names of programs and pages in the package, inserted into a page of docs/man: in its title, its NAME and its
# examples, if a word begins a line of a macro, and in references. Messages, which begin with a name and a colon, stay.
/^\.TH INITD-\(ENTRY\|SERVICE\|WITH\|TOP\|LOGS\)/! s/^\(\.TH [A-Z-]*\)/\1-PROVED/
/^\.SH NAME/ {
    n
    /^initd-\(entry\|service\|with\|top\|logs\)/! s/^\([a-z-]*\)/\1-proved/
}
s/^\(    \(.*; \|.*| \)\{0,1\}\)\(initd\|telinit\|rclinks\|rc\|initview\) /\1\3-proved /
s/^\(\.B[IR]\{0,1\} "\{0,1\}\)\(initd\|telinit\|rclinks\|rc\|initview\)\([ "]\|$\)/\1\2-proved\3/
s/^\(\.B[IR]\{0,1\} \)\(inittab\|init\\-trace\|initd\\-state\) (5)/\1\2\\-proved (5)/
