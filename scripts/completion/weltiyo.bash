# Completion by bash of the options of mi_server, mi_service, weltiyo and weltiyo-lint, and of weltiyo's tools.

_weltiyo_files() {
    local IFS=$'\n'
    local -a only=(${2:+-X} ${2:+"!*$2"})
    compopt -o filenames 2> /dev/null
    COMPREPLY=($(compgen -f "${only[@]}" -- "$1") ${2:+$(compgen -d -- "$1")})
}

_weltiyo_options() {
    local all='--connect --program --schema --timeout --help'
    case $1 in
        dump) echo "$all --journal --table --order --hold --force --resume --ids" ;;
        export) echo "$all --journal --table --order --hold --force --format" ;;
        load) echo "$all --table --keep-going --resume --renumber --references --dump --force --ids --journal" ;;
        import) echo "$all --table --keep-going --resume --renumber --references --dump --force --format" ;;
        top) echo "$all --journal --force --pid --every --count" ;;
        metrics) echo "$all --journal --force --pid --every --count --file" ;;
        status) echo "$all --json" ;;
        plot) echo "$all --journal --force --table --column --points --bins --svg --load" ;;
        web) echo "$all --journal --force --port --write" ;;
        '') echo "$all --run --tables --times --version prompt dump load export import top metrics status plot web" ;;
        *) echo "$all --run --tables --times" ;;
    esac
}

_weltiyo() {
    local word=${COMP_WORDS[COMP_CWORD]} before=${COMP_WORDS[COMP_CWORD-1]} options
    COMPREPLY=()
    case $before in
        --schema | --new-schema) _weltiyo_files "$word" .toml; return ;;
        --program | --run | --dump | --file | --svg | --load | --journal | --rebase-to | --unix) _weltiyo_files "$word"; return ;;
        --connect) case $word in */*) _weltiyo_files "$word"; return ;; esac; COMPREPLY=($(compgen -W '8000' -- "$word")); return ;;
        --listen) COMPREPLY=($(compgen -W '8000' -- "$word")); return ;;
        --clients) COMPREPLY=($(compgen -W '1 2 4 8 16 32 64' -- "$word")); return ;;
        --format) COMPREPLY=($(compgen -W 'csv jsonl' -- "$word")); return ;;
        --sync) COMPREPLY=($(compgen -W 'always turn never' -- "$word")); return ;;
    esac
    case ${1##*/} in
        mi_server) options='--schema --check --listen --clients --help' ;;
        mi_service) options='--schema --listen --unix --journal --sync --segment-bytes --hold-seconds --idle-seconds --rebase --rebase-to --new-schema --help' ;;
        weltiyo-lint)
            options='--program --help'
            [[ $word == -* ]] || { _weltiyo_files "$word" .toml; return; } ;;
        weltiyo)
            if ((COMP_CWORD == 1)); then options=$(_weltiyo_options ''); else
                options=$(_weltiyo_options "${COMP_WORDS[1]}")
                case ${COMP_WORDS[1]} in dump | load | export | import) [[ $word == -* ]] || { _weltiyo_files "$word"; return; } ;; esac
            fi ;;
    esac
    COMPREPLY=($(compgen -W "$options" -- "$word"))
}

complete -F _weltiyo mi_server mi_service weltiyo weltiyo-lint
