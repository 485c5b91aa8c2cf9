# bash completion for vempaldi(1). It needs nothing of the package bash-completion.

# Which options a command takes.
_vempaldi_options() {
    case $1 in
    check) echo -q --raw --help ;;
    plan) echo -p --line --plan --write-plan -o --json --raw --help ;;
    join | make) echo -o --raw --help ;;
    run) echo -p --line --plan --order --memory --values -o --raw --help ;;
    dump) echo --raw --help ;;
    draw) echo -p --line --plan -o --raw --help ;;
    esac
}

# _vempaldi_value COMMAND OPTION BEGUN: what may stand behind an option, by what of it is typed.
_vempaldi_value() {
    case $2,$3 in
    --order,@* | --memory,@*) compgen -f -P @ -- "${3#@}" ;;
    --order,*) compgen -W 'turns falling none random: @' -- "$3" ;;
    --memory,*) compgen -W 'index zero random: @' -- "$3" ;;
    --plan,* | --write-plan,*) compgen -f -- "$3" ;;
    -p,* | --line,*) compgen -W '1 2 4 8 16 32 64' -- "$3" ;;
    -o,*) if [[ $1 == plan ]]; then compgen -d -- "$3"; else compgen -f -- "$3"; fi ;;
    esac
}

_vempaldi() {
    local word=${COMP_WORDS[COMP_CWORD]} before=${COMP_WORDS[COMP_CWORD - 1]} command=''
    [[ $COMP_CWORD -gt 1 ]] && command=${COMP_WORDS[1]}
    # bash takes '--order=turns' for three words.
    if [[ $word == = ]]; then
        word=''
    elif [[ $before == = && $COMP_CWORD -gt 2 ]]; then
        before=${COMP_WORDS[COMP_CWORD - 2]}
    fi
    if [[ -z $command ]]; then
        mapfile -t COMPREPLY < <(compgen -W 'check plan join run dump make draw --help --version' -- "$word")
        return
    fi
    # Behind '--' there are files alone.
    local at
    for ((at = 2; at < COMP_CWORD; at++)); do
        [[ ${COMP_WORDS[at]} != -- ]] || before=--
    done
    case $before in
    --) mapfile -t COMPREPLY < <(compgen -f -- "$word") ;;
    -p | --line | --plan | --write-plan | -o | --order | --memory) mapfile -t COMPREPLY < <(_vempaldi_value "$command" "$before" "$word") ;;
    *)
        case $word in
        -*) mapfile -t COMPREPLY < <(compgen -W "$(_vempaldi_options "$command")" -- "$word") ;;
        *) mapfile -t COMPREPLY < <(compgen -f -- "$word") ;;
        esac
        ;;
    esac
    # A seed or a file name goes on in the same word.
    case ${COMPREPLY[*]} in *: | @ | @*) compopt -o nospace 2> /dev/null ;; esac
}

complete -o filenames -F _vempaldi vempaldi
