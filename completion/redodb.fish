# Completion of redodb, redodb-live and the redo programs in fish.

function __redodb_at --argument-names count
    test (count (commandline -opc)) -eq $count
end

function __redodb_word
    set -l words (commandline -opc)
    test (count $words) -gt 1; and contains -- $words[2] $argv
end

# Prints names, each with a NUL, so that none is an option or a home. A tab would end it: such names are left out.
function __redodb_names
    for name in $argv
        switch $name
            case '*'\t'*'
            case '-*' '~*'
                printf './%s\0' $name
            case '*'
                printf '%s\0' $name
        end
    end
end

function __redodb_targets
    __redodb_names (redo-targets -0 2>/dev/null | string split0)
end

# Whether nothing is typed yet, and a file here has a name like an option or a home.
function __redodb_odd
    set -l files ./-* ./\~*
    test -z "$(commandline -ct)"; and test (count $files) -gt 0
end

complete -c redodb -n '__redodb_at 1' -f -a run -d 'Run session files side by side'
complete -c redodb -n '__redodb_at 1' -f -a replay -d 'Do a stored history again'
complete -c redodb -n '__redodb_at 1' -f -a serve -d 'Be the server of a tree'
complete -c redodb -n '__redodb_at 1' -f -a record -d 'Tell what another build tool knows of a tree'
complete -c redodb -n '__redodb_at 1' -f -a picture -d 'Draw a history'
complete -c redodb -n '__redodb_word record; and __redodb_at 2' -f -a 'ninja make depfiles compdb'
complete -c redodb -n '__redodb_word picture; and __redodb_at 2' -f -a 'run graph'
complete -c redodb -n '__redodb_word serve' -l top -r -d 'Top of the tree'
complete -c redodb -n '__redodb_word serve' -l idle -x -d 'Seconds after the last client'
complete -c redodb -n '__redodb_word serve' -l runs -x -d 'Clients with a session'
complete -c redodb -n '__redodb_word record' -l log -r -d 'Write a log'
complete -c redodb -n '__redodb_word record' -l rules -d 'Write .do files'
complete -c redodb -n '__redodb_word picture' -l lines -x -d 'Lines to show'
complete -c redodb -n '__redodb_word picture' -l targets -x -d 'Targets to show'
complete -c redodb -n '__redodb_word serve record picture' -l help -d 'Print a summary'

complete -c redodb-live -l log -r -d 'Go on from this log'
complete -c redodb-live -l sync -d 'Sync each line'
complete -c redodb-live -l salvage -d 'Cut a damaged log'
complete -c redodb-live -l compact -d 'Put a dump in the place of the log'
complete -c redodb-live -l whole -d 'Keep all lines of the log'
complete -c redodb-live -l backup -r -d 'Put what it has into a new file'
complete -c redodb-live -l help -d 'Print a summary'
complete -c redodb-live -l version -d 'Print the version'

for program in redo redo-ifchange redo-ifcreate redo-log redo-whichdo redo-why redo-always redo-ood redo-sources redo-stamp redo-targets
    complete -c $program -s h -l help -d 'Print a summary'
    complete -c $program -l version -d 'Print the version'
end
for program in redo-log redo-why
    complete -c $program -f -a '(__redodb_targets | string split0)' -d Target
end
for program in redo redo-ifchange redo-ifcreate redo-whichdo
    complete -c $program -a '(__redodb_targets | string split0)' -d Target
    complete -c $program -n __redodb_odd -f -a '(__redodb_names * | string split0)'
end
for program in redo-ood redo-sources redo-targets
    complete -c $program -f -s 0 -d 'End each by a NUL'
end
complete -c redo-targets -l edited -d 'Those that were edited'
complete -c redo -s j -l jobs -x -d 'Scripts at once'
complete -c redo -s k -l keep-going -d 'Go on after a failure'
complete -c redo -s n -l dry-run -d 'Print what would be built'
complete -c redo -s d -l debug -d 'Say what is decided, and why'
complete -c redo -l no-details -d 'No lines of scripts'
complete -c redo -l shuffle -d 'Build in random order'
complete -c redo -s x -l xtrace -d 'Print commands'
complete -c redo -s v -l verbose -d 'Print lines of scripts'
complete -c redo -l overwrite -d 'Build edited targets'
complete -c redo -l no-log -d 'Keep no log'
complete -c redo -l no-color -d 'No colours'
complete -c redo -l no-status -d 'No progress'
complete -c redo-why -l json -d 'Print objects'
complete -c redo-why -l users -d 'Print what depends on it'
complete -c redo-why -n '__fish_contains_opt users' -F
complete -c redo-log -s f -l follow -d 'Go on while it is built'
complete -c redo-log -s n -l no-recurse -d 'The log of the target alone'
complete -c redo-log -s r -l recursive -d 'Those it asked for, too'
complete -c redo-log -s u -l unchanged -d 'Lines for what was needed and not built'
complete -c redo-log -l no-details -d 'No lines of scripts'
complete -c redo-log -l no-color -d 'No colours'
