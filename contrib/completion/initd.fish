# Completion of fish for initd, telinit, rclinks, rc, initview and the scripts initd-*, under these names and those of
# the package: what bash would complete, by the file `initd` beside this one or in the folder of bash's completions.
# Fish loads the installed files if XDG_DATA_DIRS contains PREFIX/share.

set -l folder (dirname (realpath (status filename)))
set -g __initd_file $folder/initd
test -e $__initd_file; or set -g __initd_file (realpath $folder/../../bash-completion/completions/initd)

function __initd_complete
    set -l words (commandline -opc) (commandline -ct)
    bash -c '. "$0" && COMP_WORDS=("$@") && COMP_CWORD=$(($# - 1)) && _initd && printf "%s\n" "${COMPREPLY[@]}"' \
        $__initd_file $words 2>/dev/null | while read -l found
        # A folder is completed further.
        test -d $found; and set found $found/
        test -n "$found"; and echo $found
    end
end

for program in initd telinit rclinks rc initview
    complete -c $program -f -a '(__initd_complete)'
    complete -c $program-proved -f -a '(__initd_complete)'
end
for script in initd-entry initd-service initd-with initd-top initd-logs
    complete -c $script -f -a '(__initd_complete)'
end
