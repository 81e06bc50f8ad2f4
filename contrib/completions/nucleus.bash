# Completion of nucleus(8) for bash: source it, or put it as `nucleus` into bash-completion's folder.
_nucleus() {
    local word=${COMP_WORDS[COMP_CWORD]} before=${COMP_WORDS[COMP_CWORD - 1]}
    local commands="init deploy local config-set resume serve status plan why config-get audit components about workload" command="" at options=""
    # bash splits a word at `=`.
    if [[ $before == "=" ]]; then
        before=${COMP_WORDS[COMP_CWORD - 2]}
    elif [[ $word == "=" ]]; then
        word=""
    fi
    COMPREPLY=()
    case $before in
        --root)
            mapfile -t COMPREPLY < <(compgen -d -- "$word")
            compopt -o filenames 2> /dev/null
            return
            ;;
        --os)
            mapfile -t COMPREPLY < <(compgen -W "linux" -- "$word")
            return
            ;;
        --arch)
            mapfile -t COMPREPLY < <(compgen -W "amd64 aarch64 arm x86" -- "$word")
            return
            ;;
        --turns)
            mapfile -t COMPREPLY < <(compgen -W "4294967295" -- "$word")
            return
            ;;
        --thing | --nucleus | --component | --pointer | --seed)
            return
            ;;
    esac
    # The command, if it stands already: a word that is none of an option's.
    for ((at = 1; at < COMP_CWORD; at++)); do
        case ${COMP_WORDS[at]} in
            --root | --thing | --nucleus | --os | --arch | --component | --pointer | --turns | --seed)
                at=$((at + 1))
                if [[ ${COMP_WORDS[at]} == "=" ]]; then
                    at=$((at + 1))
                fi
                ;;
            -*) ;;
            *)
                command=${COMP_WORDS[at]}
                ;;
        esac
    done
    options="--root"
    case $command in
        init) options+=" --thing --nucleus --os --arch" ;;
        config-set) options+=" --component" ;;
        config-get) options+=" --component --pointer" ;;
        serve) options+=" --turns" ;;
        workload) options+=" --seed" ;;
        status) options+=" --json" ;;
    esac
    # Each option comes once.
    local left="" option
    for option in $options; do
        if [[ " ${COMP_WORDS[*]:1:COMP_CWORD-1} " != *" $option"[\ =]* ]]; then
            left+=" $option"
        fi
    done
    if [[ -z $command && $word != -* ]]; then
        mapfile -t COMPREPLY < <(compgen -W "$commands" -- "$word")
        [[ -n $word ]] || COMPREPLY+=(--root)
    else
        mapfile -t COMPREPLY < <(compgen -W "$left" -- "$word")
    fi
}
complete -F _nucleus nucleus
