# Completion of redodb, redodb-live and the redo programs in bash. Names are never expanded.

# Sets `plain` to a word without its quotes.
_redodb_plain() {
    local rest=$1 quote=
    plain=
    while [ -n "$rest" ]; do
        case $quote:$rest in
            "':'"* | '":"'*) quote= ;;
            ":'"* | ':"'*) quote=${rest:0:1} ;;
            ':\'* | '":\'[\\\"\$\`]*) plain+=${rest:1:1} rest=${rest:1} ;;
            *) plain+=${rest:0:1} ;;
        esac
        rest=${rest:1}
    done
}

# Adds a name to the answers, so that it is neither an option nor a home.
_redodb_add() {
    case $1 in
        [-~]*) COMPREPLY+=("./$1") ;;
        *) COMPREPLY+=("$1") ;;
    esac
}

# Adds the files or folders that begin with a word, by `-f` or `-d`. No file name has a slash: it ends each here.
_redodb_files() {
    local lines line name=
    mapfile -t lines < <(compgen -S // "$1" -- "$2")
    for line in "${lines[@]}"; do
        name+=$line
        case $2:$line in
            '~'*//) COMPREPLY+=("${name%//}") name= ;;
            *//) _redodb_add "${name%//}"; name= ;;
            *) name+=$'\n' ;;
        esac
    done
}

# Adds the targets that begin with a word.
_redodb_targets() {
    local plain targets target
    _redodb_plain "$1"
    mapfile -d '' -t targets < <(redo-targets -0 2>/dev/null)
    for target in "${targets[@]}"; do
        case $target in
            "$plain"*) _redodb_add "$target" ;;
            [-~]*) [[ ./$target != "$plain"* ]] || _redodb_add "$target" ;;
        esac
    done
}

_redodb_kinds() {
    case $1 in
        record) echo ninja make depfiles compdb ;;
        picture) echo run graph ;;
    esac
}

_redodb() {
    local word=${COMP_WORDS[COMP_CWORD]} before=${COMP_WORDS[COMP_CWORD - 1]} first=${COMP_WORDS[1]}
    COMPREPLY=()
    if [ "$COMP_CWORD" -eq 1 ]; then
        mapfile -t COMPREPLY < <(compgen -W 'run replay serve record picture' -- "$word")
    elif [ "$before" = --top ] || { [ "$first" = record ] && [ "$COMP_CWORD" -eq 3 ]; }; then
        _redodb_files -d "$word"
    elif [ "$COMP_CWORD" -eq 2 ] && [ -n "$(_redodb_kinds "$first")" ]; then
        mapfile -t COMPREPLY < <(compgen -W "$(_redodb_kinds "$first") --help" -- "$word")
    elif [ "${word#-}" != "$word" ]; then
        case $first in
            serve) mapfile -t COMPREPLY < <(compgen -W '--top --idle --runs --help' -- "$word") ;;
            record) mapfile -t COMPREPLY < <(compgen -W '--rules --log' -- "$word") ;;
            picture) mapfile -t COMPREPLY < <(compgen -W '--lines --targets' -- "$word") ;;
        esac
    else
        _redodb_files -f "$word"
    fi
}

_redodb_live() {
    local word=${COMP_WORDS[COMP_CWORD]}
    COMPREPLY=()
    case ${COMP_WORDS[COMP_CWORD - 1]} in
        --log | --backup) _redodb_files -f "$word" ;;
        *) mapfile -t COMPREPLY < <(compgen -W '--log --sync --salvage --compact --whole --backup --help --version' -- "$word") ;;
    esac
}

_redo() {
    local word=${COMP_WORDS[COMP_CWORD]} options='--help --version'
    case ${COMP_WORDS[0]##*/} in
        redo) options+=' -j --jobs= -k --keep-going -n --dry-run -d --debug --shuffle -x --xtrace -v --verbose --overwrite --no-details --no-log --no-color --no-status' ;;
        redo-log) options+=' -f --follow -n --no-recurse -r --recursive -u --unchanged --no-details --no-color' ;;
        redo-why) options+=' --json --users' ;;
    esac
    COMPREPLY=()
    case ${COMP_WORDS[0]##*/}:$word in
        *:-*) mapfile -t COMPREPLY < <(compgen -W "$options" -- "$word") ;;
        redo-why:* | redo-log:*) _redodb_targets "$word" ;;
        *) _redodb_targets "$word"; _redodb_files -f "$word" ;;
    esac
    # sources have users, too
    if [[ "${COMP_WORDS[0]##*/} ${COMP_WORDS[*]}" == redo-why*' --users '* ]]; then _redodb_files -f "$word"; fi
}

complete -o filenames -F _redodb redodb
complete -o filenames -F _redodb_live redodb-live
complete -o filenames -F _redo redo redo-ifchange redo-ifcreate redo-log redo-whichdo redo-why
complete -W '--help --version' redo-always redo-stamp
complete -W '-0 --help --version' redo-ood redo-sources
complete -W '--edited -0 --help --version' redo-targets
