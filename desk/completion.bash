# bash completion for yinqocha: commands, the options of each command, and files.

# Adds those of the given words that begin with the word under the cursor.
_yinqocha_words() {
    local word
    for word in "$@"; do
        [[ $word == "$cur"* ]] && COMPREPLY+=("$word")
    done
}

# Adds the files that begin with the word under the cursor; bash quotes them and puts a slash behind folders.
_yinqocha_files() {
    local file
    compopt -o filenames 2>/dev/null
    while IFS= read -r file; do
        COMPREPLY+=("$file")
    done < <(compgen -f -- "$cur")
}

# The options of a command. $1 is the command, or nothing before there is one.
_yinqocha_options() {
    local forms='--json --csv --lines'
    case $1 in
    plan | best) echo "$forms --html --help" ;;
    check) echo "$forms --list --set --page --help" ;;
    compare | show) echo "$forms --help" ;;
    sheet) echo "-o --output --help" ;;
    '') echo "--help --version" ;;
    esac
}

_yinqocha() {
    local commands='plan best check compare sheet show help'
    local cur=${COMP_WORDS[COMP_CWORD]} before='' command='' ended='' at
    COMPREPLY=()
    ((COMP_CWORD > 1)) && command=${COMP_WORDS[1]}
    ((COMP_CWORD > 0)) && before=${COMP_WORDS[COMP_CWORD - 1]}
    for ((at = 2; at < COMP_CWORD; at++)); do
        [[ ${COMP_WORDS[at]} == -- ]] && ended=yes
    done

    # The = of --html=FILE is a word of its own where it breaks words.
    if [[ $cur == = ]]; then
        cur=''
    elif [[ $before == = ]] && ((COMP_CWORD > 1)); then
        before=${COMP_WORDS[COMP_CWORD - 2]}
    fi

    if [[ -z $command ]]; then
        # shellcheck disable=SC2046,SC2086
        _yinqocha_words $commands $([[ $cur == -* ]] && _yinqocha_options '')
    elif [[ $command == help ]]; then
        # shellcheck disable=SC2086
        ((COMP_CWORD == 2)) && _yinqocha_words $commands
    elif [[ -n $ended ]]; then
        _yinqocha_files
    else
        case $before in
        --html | --output | -o | --list | --page) _yinqocha_files ;;
        --set) _yinqocha_words all ;;
        *)
            if [[ $cur == -* ]]; then
                # shellcheck disable=SC2046
                _yinqocha_words $(_yinqocha_options "$command")
            else
                _yinqocha_files
            fi
            ;;
        esac
    fi
    return 0
}

complete -F _yinqocha yinqocha
