#compdef redodb redodb-live redo redo-ifchange redo-ifcreate redo-log redo-whichdo redo-why redo-always redo-ood redo-sources redo-stamp redo-targets
# Completion of redodb, redodb-live and the redo programs in zsh.

_redodb_words() {
    local -a words_of_redodb
    words_of_redodb=(
        'run:run session files side by side'
        'replay:do a stored history again'
        'serve:be the server of a tree'
        'record:tell what another build tool knows of a tree'
        'picture:draw a history'
    )
    _describe word words_of_redodb
}

_redo_targets() {
    local -a names
    names=(${(0)"$(redo-targets -0 2>/dev/null)"})
    names=(${names:#[-~]*} ./${^${(M)names:#[-~]*}})  # neither an option nor a home
    compadd -a names
}

_redo_files() {
    if [[ -n $PREFIX ]]; then _files; else _path_files -g '[^-~]*'; fi
}

_redodb_program() {
    if (( CURRENT == 2 )); then
        _redodb_words
        return
    fi
    case $words[2] in
        serve) _arguments '2:word:' '--top[top of the tree]:folder:_files -/' '--idle[seconds after the last client]:seconds:' '--runs[clients with a session]:number:' '--help[print a summary]' ;;
        record)
            _arguments '2:word:' '3:kind:(ninja make depfiles compdb)' '4:folder:_files -/' '--log[write a log]:log:_files' \
                '--rules[write .do files]' '*:goal:' ;;
        picture)
            _arguments '2:word:' '3:kind:(run graph)' '4:history:_files' '--lines[lines to show]:first-last:' \
                '--targets[targets to show]:number:' '*:target:_redo_targets' ;;
        *) _files ;;
    esac
}

case $service in
    redodb) _redodb_program ;;
    redodb-live)
        _arguments '--log[go on from this log]:log:_files' '--sync[sync each line]' '--salvage[cut a damaged log]' \
            '(--whole)--compact[put a dump in the place of the log]' '(--compact)--whole[keep all lines of the log]' \
            '--backup[put what it has into a new file]:copy:_files' '--help[print a summary]' '--version[print the version]' ;;
    redo)
        _arguments '(-j --jobs)'{-j,--jobs=}'[scripts at once]:number:' '(-k --keep-going)'{-k,--keep-going}'[go on after a failure]' \
            '(-n --dry-run)'{-n,--dry-run}'[print what would be built]' \
            '(-d --debug)'{-d,--debug}'[say what is decided, and why]' '--no-details[no lines of scripts]' \
            '--shuffle[build in random order]' '(-x --xtrace)'{-x,--xtrace}'[print commands]' \
            '(-v --verbose)'{-v,--verbose}'[print lines of scripts]' '--overwrite[build edited targets]' '--no-log[keep no log]' '--no-color[no colours]' \
            '--no-status[no progress]' '--help[print a summary]' '--version[print the version]' \
            '*:target:{ _redo_targets; _redo_files }' ;;
    redo-why)
        _arguments '--json[print objects]' '--users[print what depends on it]' '--help[print a summary]' \
            '--version[print the version]' '*:target:{ _redo_targets; (( ! $words[(I)--users] )) || _redo_files }' ;;
    redo-log)
        _arguments '(-n --no-recurse)'{-n,--no-recurse}'[the log of the target alone]' '--no-color[no colours]' \
            '(-u --unchanged)'{-u,--unchanged}'[lines for what was needed and not built]' '--no-details[no lines of scripts]' \
            '(-f --follow)'{-f,--follow}'[go on while it is built]' '(-r --recursive)'{-r,--recursive}'[those it asked for, too]' \
            '--help[print a summary]' '--version[print the version]' '*:target:_redo_targets' ;;
    redo-ifchange|redo-ifcreate|redo-whichdo)
        _arguments '--help[print a summary]' '--version[print the version]' '*:target:{ _redo_targets; _redo_files }' ;;
    redo-targets)
        _arguments '--edited[those that were edited]' '-0[end each by a NUL]' '--help[print a summary]' \
            '--version[print the version]' ;;
    redo-ood|redo-sources)
        _arguments '-0[end each by a NUL]' '--help[print a summary]' '--version[print the version]' ;;
    *) _arguments '--help[print a summary]' '--version[print the version]' ;;
esac
