# Completes the words of hdt in bash. tools/completions.py makes what is between "of the help" and "end".
_hdt() {
    local word=${COMP_WORDS[COMP_CWORD]} line=$COMP_LINE count=0 skip="" i
    local -a words=()
    # (bash cuts words at : and =, too: pieces without a blank between them are one word)
    for ((i = 0; i <= COMP_CWORD; i++)); do
        if ((i == 0)) || [[ $line == [[:blank:]]* ]]; then
            words+=("${COMP_WORDS[i]}")
        else
            words[-1]+=${COMP_WORDS[i]}
        fi
        line=${line#*"${COMP_WORDS[i]}"}
    done
    local current=${words[-1]} commands options="" arguments=""
    # of the help:
    commands="head verify info strings string number find answer dump count build rewrite merge lint split explain help --help --version"
    # end
    unset 'words[-1]'
    compopt +o default
    COMPREPLY=()
    if ((${#words[@]} == 1)); then
        mapfile -t COMPREPLY < <(compgen -W "$commands" -- "$word")
        return
    fi
    # The options of the command, and how each of its arguments is completed.
    case ${words[1]} in
    # of the help:
    head) options="--verbose --no-progress --body --help" arguments=".hdt" ;;
    verify) options="--verbose --no-progress --tight --terms --progress --help" arguments=".hdt" ;;
    info) options="--verbose --no-progress --json --help" arguments=".hdt" ;;
    strings) options="--verbose --no-progress --prefix --terms --help" arguments=".hdt subject|predicate|object" ;;
    string) options="--verbose --no-progress --help" arguments=".hdt subject|predicate|object |" ;;
    number) options="--verbose --no-progress --raw --help" arguments=".hdt subject|predicate|object |" ;;
    find) options="--verbose --no-progress --raw --numbers --count --quiet --skip-non-terms --most --help" arguments=".hdt | | |" ;;
    answer) options="--verbose --no-progress --raw --numbers --count --skip-non-terms --most --longest-request --help" arguments=".hdt" ;;
    dump) options="--verbose --no-progress --skip-non-terms --help" arguments=".hdt" ;;
    count) options="--verbose --no-progress --top --raw --help" arguments=".hdt subject|predicate|object" ;;
    build) options="--verbose --no-progress --base --block-size --blank-nodes --longest-line --memory --scratch --progress --help" arguments=".nt .nt" ;;
    rewrite) options="--verbose --no-progress --block-size --header --progress --help" arguments=".hdt .hdt" ;;
    merge) options="--verbose --no-progress --base --block-size --blank-nodes --memory --scratch --progress --help" arguments=".hdt .hdt" ;;
    lint) options="--keep --most --longest-line --verbose --help" arguments=".nt" ;;
    split) options="--parts --of --blank-nodes --longest-line --verbose --help" arguments=".nt .nt" ;;
    explain) options="--help" arguments="|" ;;
    help) options="" arguments="head|verify|info|strings|string|number|find|answer|dump|count|build|rewrite|merge|lint|split|explain|help" ;;
    # end
    esac
    for i in "${words[@]:2}"; do
        case $skip$i in
        =*) skip="" ;;
        # of the help:
        --prefix | --most | --longest-request | --top | --base | --block-size | --blank-nodes | --longest-line | --memory | --scratch | --header | --parts | --of) skip="=" ;;
        # end
        -?*) ;;
        *) count=$((count + 1)) ;;
        esac
    done
    [ -z "$skip" ] || return
    case $current in
    -?*)
        mapfile -t COMPREPLY < <(compgen -W "$options" -- "$word")
        return
        ;;
    esac
    read -ra words <<<"$arguments"
    case ${words[count]-} in
    "") ;;
    .*)
        # (files with the suffix and folders; without such a file all)
        mapfile -t COMPREPLY < <(compgen -f -X "!*${words[count]}" -- "$word")
        compopt -o filenames -o default
        ((${#COMPREPLY[@]} == 0)) || mapfile -t -O ${#COMPREPLY[@]} COMPREPLY < <(compgen -d -- "$word")
        ;;
    *) mapfile -t COMPREPLY < <(compgen -W "${words[count]//|/ }" -- "$word") ;;
    esac
}
complete -o default -F _hdt hdt
