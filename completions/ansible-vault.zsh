#compdef ansible-vault ansible-vault-with ansible-vault-edit ansible-vault-rotate ansible-vault-check ansible-vault-textconv ansible-vault-hook ansible-vault-merge
# Completion of ansible-vault's commands, options and files for zsh, and of its companions.

# A file. A `~` that the shell would leave as it is, after `=` or a label, is expanded here.
_ansible_vault_files() {
    if [[ -n $IPREFIX && $PREFIX == \~* ]]; then
        [[ $PREFIX == \~(|/*) ]] || return 1
        PREFIX=$HOME${PREFIX#\~}
    fi
    _files
}

# A file, after a label and `@` where there is one.
_ansible_vault_id() {
    compset -P 1 '*@'
    _ansible_vault_files
}

# tools/write_documents writes what follows.
# The commands of a program, and what they do.
_ansible_vault_listed() {
    case $1 in
        'ansible-vault') listed=(
            'encrypt:Encrypts a file'
            'decrypt:Decrypts a vault'
            'view:Prints the plaintext of a vault'
            'rekey:Re-encrypts a vault with a new password'
            'encrypt_string:Encrypts text as a value for YAML'
        ) ;;
        'ansible-vault-with') listed=(
            'encrypt:encrypt files in place'
            'decrypt:decrypt vaults in place'
            'view:print the plaintext of vaults'
            'rekey:re-encrypt vaults with a new password, in place'
            'encrypt_string:encrypt strings as values for YAML'
            'create:edit a new vault'
            'edit:edit vaults'
        ) ;;
    esac
}

# The options and arguments of a program, or of one of its commands.
_ansible_vault_specifications() {
    case $1 in
        'ansible-vault') specifications=(
            '(- *)'{-h,--help}'[Print help]'
            '(- *)'{-V,--version}'[Print version]'
        ) ;;
        'ansible-vault encrypt') specifications=(
            '*--vault-id=[A password file, with its label (default: `default`)]:[LABEL@]SOURCE:_ansible_vault_id'
            '*--vault-password-file=[A password file, with the label `default`]:PATH:_ansible_vault_files'
            '(--salt --salt-file)--salt-file=[Take the first 32 bytes of this file as the salt (default: /dev/urandom)]:PATH:_ansible_vault_files'
            '(--salt --salt-file)--salt=[Take this text, 1 to 64 bytes, as the salt]:TEXT: '
            '--encrypt-vault-id=[The label of the password to encrypt with]:LABEL: '
            '--output=[The file to write, or - for standard output (default: -)]:PATH:_ansible_vault_files'
            '(- *)'{-h,--help}'[Print help]'
            '1:file:_ansible_vault_files'
        ) ;;
        'ansible-vault decrypt') specifications=(
            '*--vault-id=[A password file, with its label (default: `default`)]:[LABEL@]SOURCE:_ansible_vault_id'
            '*--vault-password-file=[A password file, with the label `default`]:PATH:_ansible_vault_files'
            '--require-id-match[Try only passwords that have the vault'\''s label]'
            '--output=[The file to write, or - for standard output (default: -)]:PATH:_ansible_vault_files'
            '(- *)'{-h,--help}'[Print help]'
            '1:file:_ansible_vault_files'
        ) ;;
        'ansible-vault view') specifications=(
            '*--vault-id=[A password file, with its label (default: `default`)]:[LABEL@]SOURCE:_ansible_vault_id'
            '*--vault-password-file=[A password file, with the label `default`]:PATH:_ansible_vault_files'
            '--require-id-match[Try only passwords that have the vault'\''s label]'
            '(- *)'{-h,--help}'[Print help]'
            '1:file:_ansible_vault_files'
        ) ;;
        'ansible-vault rekey') specifications=(
            '*--vault-id=[A password file, with its label (default: `default`)]:[LABEL@]SOURCE:_ansible_vault_id'
            '*--vault-password-file=[A password file, with the label `default`]:PATH:_ansible_vault_files'
            '(--salt --salt-file)--salt-file=[Take the first 32 bytes of this file as the salt (default: /dev/urandom)]:PATH:_ansible_vault_files'
            '(--salt --salt-file)--salt=[Take this text, 1 to 64 bytes, as the salt]:TEXT: '
            '(--new-vault-id --new-vault-password-file)--new-vault-id=[The file of the new password, with its label (default: `default`)]:[LABEL@]SOURCE:_ansible_vault_id'
            '(--new-vault-id --new-vault-password-file)--new-vault-password-file=[The file of the new password, with the label `default`]:PATH:_ansible_vault_files'
            '--require-id-match[Try only passwords that have the vault'\''s label]'
            '--output=[The file to write, or - for standard output (default: -)]:PATH:_ansible_vault_files'
            '(- *)'{-h,--help}'[Print help]'
            '1:file:_ansible_vault_files'
        ) ;;
        'ansible-vault encrypt_string') specifications=(
            '*--vault-id=[A password file, with its label (default: `default`)]:[LABEL@]SOURCE:_ansible_vault_id'
            '*--vault-password-file=[A password file, with the label `default`]:PATH:_ansible_vault_files'
            '(--salt --salt-file)--salt-file=[Take the first 32 bytes of this file as the salt (default: /dev/urandom)]:PATH:_ansible_vault_files'
            '(--salt --salt-file)--salt=[Take this text, 1 to 64 bytes, as the salt]:TEXT: '
            '(--name --stdin-name -n)'{-n,--name=}'[The name of the variable, if STRING is given (default: none)]:NAME: '
            '(--name --stdin-name -n)--stdin-name=[The name of the variable, if standard input is read (default: none)]:NAME: '
            '--encrypt-vault-id=[The label of the password to encrypt with]:LABEL: '
            '--output=[The file to write, or - for standard output (default: -)]:PATH:_ansible_vault_files'
            '(- *)'{-h,--help}'[Print help]'
            '1:text: '
        ) ;;
        'ansible-vault-check') specifications=(
            '(- *)'{-h,--help}'[print help]'
            '(- *)'{-V,--version}'[print version]'
            '*--vault-id=[the source of a password]:[LABEL@]SOURCE:_ansible_vault_id'
            '*'{--vault-password-file=,--vault-pass-file=}'[the source of a password]:SOURCE:_ansible_vault_files'
            '*'{-J,--ask-vault-password,--ask-vault-pass}'[ask at the terminal for a password]'
            '--any-label[accept a password whose label differs from the vault'\''s]'
            '*--label=[check only what has this label, and count the rest]:LABEL: '
            '--list[only list places and labels, without a password]'
            '--json[print each result as a JSON object on one line]'
            '*--exclude=[skip files and directories whose name or path matches PATTERN]:PATTERN: '
            '*:file:_ansible_vault_files'
        ) ;;
        'ansible-vault-edit') specifications=(
            '(- *)'{-h,--help}'[print help]'
            '(- *)'{-V,--version}'[print version]'
            '*--vault-id=[the source of a password]:[LABEL@]SOURCE:_ansible_vault_id'
            '*'{--vault-password-file=,--vault-pass-file=}'[the source of a password]:SOURCE:_ansible_vault_files'
            '*'{-J,--ask-vault-password,--ask-vault-pass}'[ask at the terminal for a password]'
            '--any-label[accept a password whose label differs from the vault'\''s]'
            '--encrypt-vault-id=[the label for new vaults and values]:LABEL: '
            '(--resume --value)--value=[set this value from standard input, without an editor]:KEY.PATH: '
            '(--resume --value)--resume[reopen what the last edit could not store in FILE]'
            '--discard[remove what the last edit could not store in FILE]'
            '--allow-empty[make a new vault even if you save nothing]'
            '*:file:_ansible_vault_files'
        ) ;;
        'ansible-vault-hook') specifications=(
            '(- *)'{-h,--help}'[print help]'
            '(- *)'{-V,--version}'[print version]'
            '(--all --install --since --uninstall)--all[check every file of the last commit, and what it changed]'
            '(--all --install --since --uninstall)--since=[check each later commit]:COMMIT: '
            '(--all --install --since --uninstall)--install[set up hooks]'
            '(--all --install --since --uninstall)--uninstall[undo what --install has set up]'
            '*--vault-id=[for --install: a labeled password file]:[LABEL@]FILE:_ansible_vault_id'
            '*--vault-password-file=[for --install: a password file]:FILE:_ansible_vault_files'
            '*:file:_ansible_vault_files'
        ) ;;
        'ansible-vault-merge') specifications=(
            '(- *)'{-h,--help}'[print help]'
            '(- *)'{-V,--version}'[print version]'
            '*--vault-id=[the source of a password]:[LABEL@]SOURCE:_ansible_vault_id'
            '*'{--vault-password-file=,--vault-pass-file=}'[the source of a password]:SOURCE:_ansible_vault_files'
            '*'{-J,--ask-vault-password,--ask-vault-pass}'[ask at the terminal for a password]'
            '--any-label[accept a password whose label differs from the vault'\''s]'
            '--encrypt-vault-id=[the label to use if the sides have different labels or passwords]:LABEL: '
            '*:file:_ansible_vault_files'
        ) ;;
        'ansible-vault-rotate') specifications=(
            '(- *)'{-h,--help}'[print help]'
            '(- *)'{-V,--version}'[print version]'
            '*--vault-id=[the source of a password]:[LABEL@]SOURCE:_ansible_vault_id'
            '*'{--vault-password-file=,--vault-pass-file=}'[the source of a password]:SOURCE:_ansible_vault_files'
            '*'{-J,--ask-vault-password,--ask-vault-pass}'[ask at the terminal for a password]'
            '*--new-vault-id=[the source of a new password]:[LABEL@]SOURCE:_ansible_vault_id'
            '*--new-vault-password-file=[the source of a new password]:SOURCE:_ansible_vault_files'
            '--any-label[give the new password and its label to whatever an old one decrypts]'
            '--dry-run[replace no file, and report what would be done]'
            '--json[print each result as a JSON object on one line]'
            '*--exclude=[skip files and directories whose name or path matches PATTERN]:PATTERN: '
            '*:file:_ansible_vault_files'
        ) ;;
        'ansible-vault-textconv') specifications=(
            '(- *)'{-h,--help}'[print help]'
            '(- *)'{-V,--version}'[print version]'
            '*--vault-id=[the source of a password]:[LABEL@]SOURCE:_ansible_vault_id'
            '*'{--vault-password-file=,--vault-pass-file=}'[the source of a password]:SOURCE:_ansible_vault_files'
            '*'{-J,--ask-vault-password,--ask-vault-pass}'[ask at the terminal for a password]'
            '--value=[print only this value'\''s plaintext, byte for byte]:KEY.PATH: '
            '*:file:_ansible_vault_files'
        ) ;;
        'ansible-vault-with') specifications=(
            '(- *)'{-h,--help}'[print help]'
            '(- *)'{-V,--version}'[print version]'
            '*--vault-id=[the source of a password]:[LABEL@]SOURCE:_ansible_vault_id'
            '*'{--vault-password-file=,--vault-pass-file=}'[the source of a password]:SOURCE:_ansible_vault_files'
            '*'{-J,--ask-vault-password,--ask-vault-pass}'[ask at the terminal for a password]'
        ) ;;
        'ansible-vault-with encrypt') specifications=(
            '(- *)'{-h,--help}'[print help]'
            '(- *)'{-V,--version}'[print version]'
            '*--vault-id=[the source of a password]:[LABEL@]SOURCE:_ansible_vault_id'
            '*'{--vault-password-file=,--vault-pass-file=}'[the source of a password]:SOURCE:_ansible_vault_files'
            '*'{-J,--ask-vault-password,--ask-vault-pass}'[ask at the terminal for a password]'
            '--encrypt-vault-id=[the label of the password to encrypt with, among those given]:LABEL: '
            '--output=[the file to write, or - for standard output]:PATH:_ansible_vault_files'
            '(--salt --salt-file)--salt=[the salt]:TEXT: '
            '(--salt --salt-file)--salt-file=[the file whose first 32 bytes are the salt]:PATH:_ansible_vault_files'
            '*:file:_ansible_vault_files'
        ) ;;
        'ansible-vault-with decrypt') specifications=(
            '(- *)'{-h,--help}'[print help]'
            '(- *)'{-V,--version}'[print version]'
            '*--vault-id=[the source of a password]:[LABEL@]SOURCE:_ansible_vault_id'
            '*'{--vault-password-file=,--vault-pass-file=}'[the source of a password]:SOURCE:_ansible_vault_files'
            '*'{-J,--ask-vault-password,--ask-vault-pass}'[ask at the terminal for a password]'
            '--require-id-match[try only passwords with the label of the vault]'
            '--output=[the file to write, or - for standard output]:PATH:_ansible_vault_files'
            '*:file:_ansible_vault_files'
        ) ;;
        'ansible-vault-with view') specifications=(
            '(- *)'{-h,--help}'[print help]'
            '(- *)'{-V,--version}'[print version]'
            '*--vault-id=[the source of a password]:[LABEL@]SOURCE:_ansible_vault_id'
            '*'{--vault-password-file=,--vault-pass-file=}'[the source of a password]:SOURCE:_ansible_vault_files'
            '*'{-J,--ask-vault-password,--ask-vault-pass}'[ask at the terminal for a password]'
            '--require-id-match[try only passwords with the label of the vault]'
            '*:file:_ansible_vault_files'
        ) ;;
        'ansible-vault-with rekey') specifications=(
            '(- *)'{-h,--help}'[print help]'
            '(- *)'{-V,--version}'[print version]'
            '*--vault-id=[the source of a password]:[LABEL@]SOURCE:_ansible_vault_id'
            '*'{--vault-password-file=,--vault-pass-file=}'[the source of a password]:SOURCE:_ansible_vault_files'
            '*'{-J,--ask-vault-password,--ask-vault-pass}'[ask at the terminal for a password]'
            '--encrypt-vault-id=[the label of the password to encrypt with, among those given]:LABEL: '
            '--require-id-match[try only passwords with the label of the vault]'
            '--any-label[accept a password whose label differs from the vault'\''s]'
            '--output=[the file to write, or - for standard output]:PATH:_ansible_vault_files'
            '(--salt --salt-file)--salt=[the salt]:TEXT: '
            '(--salt --salt-file)--salt-file=[the file whose first 32 bytes are the salt]:PATH:_ansible_vault_files'
            '*--new-vault-id=[the source of a new password]:[LABEL@]SOURCE:_ansible_vault_id'
            '*--new-vault-password-file=[the source of a new password]:SOURCE:_ansible_vault_files'
            '*:file:_ansible_vault_files'
        ) ;;
        'ansible-vault-with encrypt_string') specifications=(
            '(- *)'{-h,--help}'[print help]'
            '(- *)'{-V,--version}'[print version]'
            '*--vault-id=[the source of a password]:[LABEL@]SOURCE:_ansible_vault_id'
            '*'{--vault-password-file=,--vault-pass-file=}'[the source of a password]:SOURCE:_ansible_vault_files'
            '*'{-J,--ask-vault-password,--ask-vault-pass}'[ask at the terminal for a password]'
            '--encrypt-vault-id=[the label of the password to encrypt with, among those given]:LABEL: '
            '--output=[the file to write, or - for standard output]:PATH:_ansible_vault_files'
            '(--salt --salt-file)--salt=[the salt]:TEXT: '
            '(--salt --salt-file)--salt-file=[the file whose first 32 bytes are the salt]:PATH:_ansible_vault_files'
            '--stdin-name=[encrypt standard input, under this name]:NAME: '
            '*'{-n,--name=}'[the name of the next STRING]:NAME: '
            '(--prompt -p)'{-p,--prompt}'[ask for one more string, and for its name]'
            '--show-input[show the string of --prompt while you type it]'
            '*:text: '
        ) ;;
        'ansible-vault-with create') specifications=(
            '(- *)'{-h,--help}'[print help]'
            '(- *)'{-V,--version}'[print version]'
            '*--vault-id=[the source of a password]:[LABEL@]SOURCE:_ansible_vault_id'
            '*'{--vault-password-file=,--vault-pass-file=}'[the source of a password]:SOURCE:_ansible_vault_files'
            '*'{-J,--ask-vault-password,--ask-vault-pass}'[ask at the terminal for a password]'
            '--encrypt-vault-id=[the label of the password to encrypt with, among those given]:LABEL: '
            '--any-label[accept a password whose label differs from the vault'\''s]'
            '(--resume --value)--value=[set this YAML value from standard input]:KEY.PATH: '
            '(--resume --value)--resume[reopen what the last edit could not store in FILE]'
            '--skip-tty-check[ignored]'
            '1:file:_ansible_vault_files'
        ) ;;
        'ansible-vault-with edit') specifications=(
            '(- *)'{-h,--help}'[print help]'
            '(- *)'{-V,--version}'[print version]'
            '*--vault-id=[the source of a password]:[LABEL@]SOURCE:_ansible_vault_id'
            '*'{--vault-password-file=,--vault-pass-file=}'[the source of a password]:SOURCE:_ansible_vault_files'
            '*'{-J,--ask-vault-password,--ask-vault-pass}'[ask at the terminal for a password]'
            '--encrypt-vault-id=[the label of the password to encrypt with, among those given]:LABEL: '
            '--any-label[accept a password whose label differs from the vault'\''s]'
            '(--resume --value)--value=[set this YAML value from standard input]:KEY.PATH: '
            '(--resume --value)--resume[reopen what the last edit could not store in FILE]'
            '*:file:_ansible_vault_files'
        ) ;;
    esac
}
# Here it ends.

_ansible_vault_commands() {
    local -a listed
    _ansible_vault_listed $service
    _describe command listed
}

# An alias that zsh does not expand, by its option complete_aliases.
[[ $service == ansible-vault && ${aliases[ansible-vault]} == ansible-vault-with* ]] && service=ansible-vault-with
local context state line
local -A opt_args
local -a listed specifications
_ansible_vault_listed $service
_ansible_vault_specifications $service
if (( $#listed )); then
    _arguments -C -A '-*' $specifications '1:command:_ansible_vault_commands' '*::argument:->arguments'
    [[ $state == arguments ]] || return
    _ansible_vault_specifications "$service $line[1]"
fi
_arguments -s -S $specifications
