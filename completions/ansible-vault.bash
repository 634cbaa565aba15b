# Completion of ansible-vault's commands, options and files for bash, and of its companions.

# tools/write_documents writes what follows.
# The commands of a program.
_ansible_vault_commands() {
    case $1 in
    ansible-vault) echo encrypt decrypt view rekey encrypt_string ;;
    ansible-vault-with) echo encrypt decrypt view rekey encrypt_string create edit ;;
    esac
}

# The options of a program, or of one of its commands.
_ansible_vault_options() {
    case $1 in
    "ansible-vault") echo -h --help -V --version ;;
    "ansible-vault encrypt") echo --vault-id --vault-password-file --salt-file --salt --encrypt-vault-id --output \
        -h --help ;;
    "ansible-vault decrypt") echo --vault-id --vault-password-file --require-id-match --output -h --help ;;
    "ansible-vault view") echo --vault-id --vault-password-file --require-id-match -h --help ;;
    "ansible-vault rekey") echo --vault-id --vault-password-file --salt-file --salt --new-vault-id \
        --new-vault-password-file --require-id-match --output -h --help ;;
    "ansible-vault encrypt_string") echo --vault-id --vault-password-file --salt-file --salt -n --name \
        --stdin-name --encrypt-vault-id --output -h --help ;;
    "ansible-vault-check") echo -h --help -V --version --vault-id --vault-password-file --vault-pass-file -J \
        --ask-vault-password --ask-vault-pass --any-label --label --list --json --exclude ;;
    "ansible-vault-edit") echo -h --help -V --version --vault-id --vault-password-file --vault-pass-file -J \
        --ask-vault-password --ask-vault-pass --any-label --encrypt-vault-id --value --resume --discard \
        --allow-empty ;;
    "ansible-vault-hook") echo -h --help -V --version --all --since --install --uninstall --vault-id \
        --vault-password-file ;;
    "ansible-vault-merge") echo -h --help -V --version --vault-id --vault-password-file --vault-pass-file -J \
        --ask-vault-password --ask-vault-pass --any-label --encrypt-vault-id ;;
    "ansible-vault-rotate") echo -h --help -V --version --vault-id --vault-password-file --vault-pass-file -J \
        --ask-vault-password --ask-vault-pass --new-vault-id --new-vault-password-file --any-label --dry-run \
        --json --exclude ;;
    "ansible-vault-textconv") echo -h --help -V --version --vault-id --vault-password-file --vault-pass-file -J \
        --ask-vault-password --ask-vault-pass --value ;;
    "ansible-vault-with") echo -h --help -V --version --vault-id --vault-password-file --vault-pass-file -J \
        --ask-vault-password --ask-vault-pass ;;
    "ansible-vault-with encrypt") echo -h --help -V --version --vault-id --vault-password-file --vault-pass-file \
        -J --ask-vault-password --ask-vault-pass --encrypt-vault-id --output --salt --salt-file ;;
    "ansible-vault-with decrypt") echo -h --help -V --version --vault-id --vault-password-file --vault-pass-file \
        -J --ask-vault-password --ask-vault-pass --require-id-match --output ;;
    "ansible-vault-with view") echo -h --help -V --version --vault-id --vault-password-file --vault-pass-file -J \
        --ask-vault-password --ask-vault-pass --require-id-match ;;
    "ansible-vault-with rekey") echo -h --help -V --version --vault-id --vault-password-file --vault-pass-file -J \
        --ask-vault-password --ask-vault-pass --encrypt-vault-id --require-id-match --any-label --output --salt \
        --salt-file --new-vault-id --new-vault-password-file ;;
    "ansible-vault-with encrypt_string") echo -h --help -V --version --vault-id --vault-password-file \
        --vault-pass-file -J --ask-vault-password --ask-vault-pass --encrypt-vault-id --output --salt --salt-file \
        --stdin-name -n --name -p --prompt --show-input ;;
    "ansible-vault-with create") echo -h --help -V --version --vault-id --vault-password-file --vault-pass-file -J \
        --ask-vault-password --ask-vault-pass --encrypt-vault-id --any-label --value --resume --skip-tty-check ;;
    "ansible-vault-with edit") echo -h --help -V --version --vault-id --vault-password-file --vault-pass-file -J \
        --ask-vault-password --ask-vault-pass --encrypt-vault-id --any-label --value --resume ;;
    esac
}

# What the value of an option is: a file, perhaps after a label, or any text.
_ansible_vault_kind() {
    case $1 in
    --vault-id | --new-vault-id) echo id ;;
    --vault-password-file | --salt-file | --output | --new-vault-password-file | --vault-pass-file) echo file ;;
    --salt | --encrypt-vault-id | -n | --name | --stdin-name | --label | --exclude | --value | --since) echo text \
        ;;
    esac
}
# Here it ends.

# The command of the program of this name among the words before the one that is completed.
_ansible_vault_command() {
    local word commands
    commands=$(_ansible_vault_commands "$1")
    for word in "${COMP_WORDS[@]:1:COMP_CWORD-1}"; do
        if [[ -n $word && " $commands " == *" $word "* ]]; then
            echo "$word"
            return
        fi
    done
}

# Whether a `--` precedes the word that is completed, so that it is no option.
_ansible_vault_is_argument() {
    local word
    for word in "${COMP_WORDS[@]:1:COMP_CWORD-1}"; do
        [[ $word == -- ]] && return 0
    done
    return 1
}

# The word before the one that is completed: its option, if it is a value. Readline makes `=` and `@`
# words of their own, so these and the pieces before them are skipped.
_ansible_vault_before() {
    local index=$COMP_CWORD
    while [[ ${COMP_WORDS[index]} == [=@] || ${COMP_WORDS[index - 1]} == [=@] ]]; do
        index=$((index - 1))
    done
    [[ $index -lt $COMP_CWORD && ${COMP_WORDS[index]} == -* ]] || index=$((index - 1))
    echo "${COMP_WORDS[index]}"
}

# Whether the word follows the `=` of an option, where the shell expands no `~`.
_ansible_vault_is_joined() {
    [[ ${COMP_WORDS[COMP_CWORD]} == = || ${COMP_WORDS[COMP_CWORD - 1]} == = ]]
}

# The files whose path begins so. A `~` that the shell would leave as it is, is expanded here.
_ansible_vault_paths() {
    local start=$1
    [[ $start == \~ || $start == \~/* ]] && start=$HOME${start#\~}
    [[ $start == \~* ]] || compgen -f -- "$start"
}

# The files whose path begins with the word.
_ansible_vault_files() {
    if _ansible_vault_is_joined; then
        mapfile -t COMPREPLY < <(_ansible_vault_paths "$1")
    else
        mapfile -t COMPREPLY < <(compgen -f -- "$1")
    fi
    compopt -o filenames 2>/dev/null
}

# Such files after a label, whose `@` readline keeps in the word.
_ansible_vault_labelled_files() {
    local path
    while IFS= read -r path; do
        [[ -d $path ]] && path+=/
        COMPREPLY+=("${1%%@*}@$path")
    done < <(_ansible_vault_paths "${1#*@}")
    compopt -o filenames 2>/dev/null
    [[ ${COMPREPLY[*]} == */ ]] && compopt -o nospace 2>/dev/null
}

# Completes the word where it is the value of an option; fails where it is none.
_ansible_vault_value() {
    case $(_ansible_vault_kind "$(_ansible_vault_before)"),$1 in
    id,*@*) _ansible_vault_labelled_files "$1" ;;
    id,* | file,*) _ansible_vault_files "$1" ;;
    text,*) ;;
    *) return 1 ;;
    esac
    return 0
}

# The name of the program that a word runs, also by an alias, which bash does not expand here.
_ansible_vault_name() {
    local words=${BASH_ALIASES[$1]:-$1}
    words=${words%% *}
    echo "${words##*/}"
}

# Options for secrets may precede the command of ansible-vault-with.
_ansible_vault() {
    local name word=$2 command words
    name=$(_ansible_vault_name "$1")
    command=$(_ansible_vault_command "$name")
    COMPREPLY=()
    if ! _ansible_vault_is_argument; then
        _ansible_vault_value "$word" && return 0
        words=$(_ansible_vault_commands "$name")
        [[ $word == -* ]] && words=$(_ansible_vault_options "$name${command:+ $command}")
        if [[ $word == -* || -z $command && -n $words ]]; then
            mapfile -t COMPREPLY < <(compgen -W "$words" -- "$word")
            return 0
        fi
    fi
    [[ $command == encrypt_string ]] || _ansible_vault_files "$word"
    return 0
}

complete -F _ansible_vault ansible-vault ansible-vault-{with,edit,rotate,check,textconv,hook,merge}
