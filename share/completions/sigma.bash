# Completion of sigma for bash: its commands, and the options of a command that aren't given yet. Files come after < and >.
_sigma() {
    local word=${COMP_WORDS[COMP_CWORD]} before=${COMP_WORDS[COMP_CWORD - 1]} command='' given=' ' options='' each
    # share/make writes from share/commands: commands of bash
    local commands=' check print describe uses conflicts run replicate save resume reduce certify compare fuse narrow trial '
    # By hand.
    COMPREPLY=()
    case $word in
        '<' | '>' | '>>') word='' before='<' ;;
    esac
    case $before in
        *'<' | *'>')
            compopt -o filenames 2>/dev/null
            while IFS= read -r each; do COMPREPLY+=("$each"); done < <(compgen -f -- "$word")
            return
            ;;
        --* | '=') return ;;
    esac
    for each in "${COMP_WORDS[@]:1:COMP_CWORD-1}"; do
        case $each in
            --*) given+="$each " ;;
            *) case $commands in *" $each "*) command=${command:-$each} ;; esac ;;
        esac
    done
    case $command in
        '') options=$commands ;;
        # share/make writes from share/commands: options of each command in bash
        run) options='--until --seed --events --start --room' ;;
        replicate) options='--until --seed --events --runs --start --stride' ;;
        save) options='--until --seed --events --start' ;;
        resume) options='--until --events --room' ;;
        compare) options='--until --seed --events --runs --start' ;;
        trial) options='--seed --vertices --until --events' ;;
        # By hand.
    esac
    for each in $options; do
        case $given in
            *" $each "*) ;;
            *) case $each in "$word"*) COMPREPLY+=("$each") ;; esac ;;
        esac
    done
}
complete -F _sigma sigma
