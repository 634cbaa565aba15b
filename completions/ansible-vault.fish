# Completion of ansible-vault's commands, options and files for fish, and of its companions.

# The files whose path begins so, after a label where there is one. `~` is offered only where the word begins with
# it: nowhere else is it expanded.
function __ansible_vault_paths -a label start
    set -l home
    if string match -q '~*' -- $start
        test -z "$label"; and string match -q '~/*' -- (commandline -ct); or return
        set home $HOME/
        set start $home(string sub -s 3 -- $start)
    end
    for path in "$start"*
        test -d $path; and set path $path/
        set -q home[1]; and set path '~/'(string replace -- $home '' $path)
        printf '%s\n' "$label$path"
    end
end

# What is typed of an option's value, which may follow `=`, or have a quote or backslashes.
function __ansible_vault_value
    set -l typed (commandline -ct | string replace -r '^--[a-z-]*=' '')
    set -l value (string replace -r '^["\']' '' -- $typed)
    test "$value" = "$typed"; and set value (string unescape -- $typed)
    printf '%s\n' "$value"
end

function __ansible_vault_files
    __ansible_vault_paths '' (__ansible_vault_value)
end

# The files after the label of a vault id.
function __ansible_vault_ids
    set -l value (__ansible_vault_value)
    set -l label (string match -r '^[^@]*@' -- $value)
    __ansible_vault_paths "$label" (string replace -r '^[^@]*@' '' -- $value)
end

# tools/write_documents writes what follows.
complete -c ansible-vault -f
complete -c ansible-vault -n '__fish_seen_subcommand_from encrypt decrypt view rekey' -F
complete -c ansible-vault -n 'not __fish_seen_subcommand_from encrypt decrypt view rekey encrypt_string' -a encrypt -d 'Encrypts a file'
complete -c ansible-vault -n 'not __fish_seen_subcommand_from encrypt decrypt view rekey encrypt_string' -a decrypt -d 'Decrypts a vault'
complete -c ansible-vault -n 'not __fish_seen_subcommand_from encrypt decrypt view rekey encrypt_string' -a view -d 'Prints the plaintext of a vault'
complete -c ansible-vault -n 'not __fish_seen_subcommand_from encrypt decrypt view rekey encrypt_string' -a rekey -d 'Re-encrypts a vault with a new password'
complete -c ansible-vault -n 'not __fish_seen_subcommand_from encrypt decrypt view rekey encrypt_string' -a encrypt_string -d 'Encrypts text as a value for YAML'
complete -c ansible-vault -s h -l help -d 'Print help'
complete -c ansible-vault -n 'not __fish_seen_subcommand_from encrypt decrypt view rekey encrypt_string' -s V -l version -d 'Print version'
complete -c ansible-vault -n '__fish_seen_subcommand_from encrypt decrypt view rekey encrypt_string' -l vault-id -x -a '(__ansible_vault_ids)' -d 'A password file, with its label (default: `default`)'
complete -c ansible-vault -n '__fish_seen_subcommand_from encrypt decrypt view rekey encrypt_string' -l vault-password-file -x -a '(__ansible_vault_files)' -d 'A password file, with the label `default`'
complete -c ansible-vault -n '__fish_seen_subcommand_from encrypt rekey encrypt_string' -l salt-file -x -a '(__ansible_vault_files)' -d 'Take the first 32 bytes of this file as the salt (default: /dev/urandom)'
complete -c ansible-vault -n '__fish_seen_subcommand_from encrypt rekey encrypt_string' -l salt -x -d 'Take this text, 1 to 64 bytes, as the salt'
complete -c ansible-vault -n '__fish_seen_subcommand_from encrypt encrypt_string' -l encrypt-vault-id -x -d 'The label of the password to encrypt with'
complete -c ansible-vault -n '__fish_seen_subcommand_from encrypt decrypt rekey encrypt_string' -l output -x -a '(__ansible_vault_files)' -d 'The file to write, or - for standard output (default: -)'
complete -c ansible-vault -n '__fish_seen_subcommand_from decrypt view rekey' -l require-id-match -d 'Try only passwords that have the vault'"'"'s label'
complete -c ansible-vault -n '__fish_seen_subcommand_from rekey' -l new-vault-id -x -a '(__ansible_vault_ids)' -d 'The file of the new password, with its label (default: `default`)'
complete -c ansible-vault -n '__fish_seen_subcommand_from rekey' -l new-vault-password-file -x -a '(__ansible_vault_files)' -d 'The file of the new password, with the label `default`'
complete -c ansible-vault -n '__fish_seen_subcommand_from encrypt_string' -s n -l name -x -d 'The name of the variable, if STRING is given (default: none)'
complete -c ansible-vault -n '__fish_seen_subcommand_from encrypt_string' -l stdin-name -x -d 'The name of the variable, if standard input is read (default: none)'
complete -c ansible-vault-check -s h -l help -d 'print help'
complete -c ansible-vault-check -s V -l version -d 'print version'
complete -c ansible-vault-check -l vault-id -x -a '(__ansible_vault_ids)' -d 'the source of a password'
complete -c ansible-vault-check -l vault-password-file -l vault-pass-file -x -a '(__ansible_vault_files)' -d 'the source of a password'
complete -c ansible-vault-check -s J -l ask-vault-password -l ask-vault-pass -d 'ask at the terminal for a password'
complete -c ansible-vault-check -l any-label -d 'accept a password whose label differs from the vault'"'"'s'
complete -c ansible-vault-check -l label -x -d 'check only what has this label, and count the rest'
complete -c ansible-vault-check -l list -d 'only list places and labels, without a password'
complete -c ansible-vault-check -l json -d 'print each result as a JSON object on one line'
complete -c ansible-vault-check -l exclude -x -d 'skip files and directories whose name or path matches PATTERN'
complete -c ansible-vault-edit -s h -l help -d 'print help'
complete -c ansible-vault-edit -s V -l version -d 'print version'
complete -c ansible-vault-edit -l vault-id -x -a '(__ansible_vault_ids)' -d 'the source of a password'
complete -c ansible-vault-edit -l vault-password-file -l vault-pass-file -x -a '(__ansible_vault_files)' -d 'the source of a password'
complete -c ansible-vault-edit -s J -l ask-vault-password -l ask-vault-pass -d 'ask at the terminal for a password'
complete -c ansible-vault-edit -l any-label -d 'accept a password whose label differs from the vault'"'"'s'
complete -c ansible-vault-edit -l encrypt-vault-id -x -d 'the label for new vaults and values'
complete -c ansible-vault-edit -l value -x -d 'set this value from standard input, without an editor'
complete -c ansible-vault-edit -l resume -d 'reopen what the last edit could not store in FILE'
complete -c ansible-vault-edit -l discard -d 'remove what the last edit could not store in FILE'
complete -c ansible-vault-edit -l allow-empty -d 'make a new vault even if you save nothing'
complete -c ansible-vault-hook -s h -l help -d 'print help'
complete -c ansible-vault-hook -s V -l version -d 'print version'
complete -c ansible-vault-hook -l all -d 'check every file of the last commit, and what it changed'
complete -c ansible-vault-hook -l since -x -d 'check each later commit'
complete -c ansible-vault-hook -l install -d 'set up hooks'
complete -c ansible-vault-hook -l uninstall -d 'undo what --install has set up'
complete -c ansible-vault-hook -l vault-id -x -a '(__ansible_vault_ids)' -d 'for --install: a labeled password file'
complete -c ansible-vault-hook -l vault-password-file -x -a '(__ansible_vault_files)' -d 'for --install: a password file'
complete -c ansible-vault-merge -s h -l help -d 'print help'
complete -c ansible-vault-merge -s V -l version -d 'print version'
complete -c ansible-vault-merge -l vault-id -x -a '(__ansible_vault_ids)' -d 'the source of a password'
complete -c ansible-vault-merge -l vault-password-file -l vault-pass-file -x -a '(__ansible_vault_files)' -d 'the source of a password'
complete -c ansible-vault-merge -s J -l ask-vault-password -l ask-vault-pass -d 'ask at the terminal for a password'
complete -c ansible-vault-merge -l any-label -d 'accept a password whose label differs from the vault'"'"'s'
complete -c ansible-vault-merge -l encrypt-vault-id -x -d 'the label to use if the sides have different labels or passwords'
complete -c ansible-vault-rotate -s h -l help -d 'print help'
complete -c ansible-vault-rotate -s V -l version -d 'print version'
complete -c ansible-vault-rotate -l vault-id -x -a '(__ansible_vault_ids)' -d 'the source of a password'
complete -c ansible-vault-rotate -l vault-password-file -l vault-pass-file -x -a '(__ansible_vault_files)' -d 'the source of a password'
complete -c ansible-vault-rotate -s J -l ask-vault-password -l ask-vault-pass -d 'ask at the terminal for a password'
complete -c ansible-vault-rotate -l new-vault-id -x -a '(__ansible_vault_ids)' -d 'the source of a new password'
complete -c ansible-vault-rotate -l new-vault-password-file -x -a '(__ansible_vault_files)' -d 'the source of a new password'
complete -c ansible-vault-rotate -l any-label -d 'give the new password and its label to whatever an old one decrypts'
complete -c ansible-vault-rotate -l dry-run -d 'replace no file, and report what would be done'
complete -c ansible-vault-rotate -l json -d 'print each result as a JSON object on one line'
complete -c ansible-vault-rotate -l exclude -x -d 'skip files and directories whose name or path matches PATTERN'
complete -c ansible-vault-textconv -s h -l help -d 'print help'
complete -c ansible-vault-textconv -s V -l version -d 'print version'
complete -c ansible-vault-textconv -l vault-id -x -a '(__ansible_vault_ids)' -d 'the source of a password'
complete -c ansible-vault-textconv -l vault-password-file -l vault-pass-file -x -a '(__ansible_vault_files)' -d 'the source of a password'
complete -c ansible-vault-textconv -s J -l ask-vault-password -l ask-vault-pass -d 'ask at the terminal for a password'
complete -c ansible-vault-textconv -l value -x -d 'print only this value'"'"'s plaintext, byte for byte'
complete -c ansible-vault-with -f
complete -c ansible-vault-with -n '__fish_seen_subcommand_from encrypt decrypt view rekey create edit' -F
complete -c ansible-vault-with -n 'not __fish_seen_subcommand_from encrypt decrypt view rekey encrypt_string create edit' -a encrypt -d 'encrypt files in place'
complete -c ansible-vault-with -n 'not __fish_seen_subcommand_from encrypt decrypt view rekey encrypt_string create edit' -a decrypt -d 'decrypt vaults in place'
complete -c ansible-vault-with -n 'not __fish_seen_subcommand_from encrypt decrypt view rekey encrypt_string create edit' -a view -d 'print the plaintext of vaults'
complete -c ansible-vault-with -n 'not __fish_seen_subcommand_from encrypt decrypt view rekey encrypt_string create edit' -a rekey -d 're-encrypt vaults with a new password, in place'
complete -c ansible-vault-with -n 'not __fish_seen_subcommand_from encrypt decrypt view rekey encrypt_string create edit' -a encrypt_string -d 'encrypt strings as values for YAML'
complete -c ansible-vault-with -n 'not __fish_seen_subcommand_from encrypt decrypt view rekey encrypt_string create edit' -a create -d 'edit a new vault'
complete -c ansible-vault-with -n 'not __fish_seen_subcommand_from encrypt decrypt view rekey encrypt_string create edit' -a edit -d 'edit vaults'
complete -c ansible-vault-with -s h -l help -d 'print help'
complete -c ansible-vault-with -s V -l version -d 'print version'
complete -c ansible-vault-with -l vault-id -x -a '(__ansible_vault_ids)' -d 'the source of a password'
complete -c ansible-vault-with -l vault-password-file -l vault-pass-file -x -a '(__ansible_vault_files)' -d 'the source of a password'
complete -c ansible-vault-with -s J -l ask-vault-password -l ask-vault-pass -d 'ask at the terminal for a password'
complete -c ansible-vault-with -n '__fish_seen_subcommand_from encrypt rekey encrypt_string create edit' -l encrypt-vault-id -x -d 'the label of the password to encrypt with, among those given'
complete -c ansible-vault-with -n '__fish_seen_subcommand_from encrypt decrypt rekey encrypt_string' -l output -x -a '(__ansible_vault_files)' -d 'the file to write, or - for standard output'
complete -c ansible-vault-with -n '__fish_seen_subcommand_from encrypt rekey encrypt_string' -l salt -x -d 'the salt'
complete -c ansible-vault-with -n '__fish_seen_subcommand_from encrypt rekey encrypt_string' -l salt-file -x -a '(__ansible_vault_files)' -d 'the file whose first 32 bytes are the salt'
complete -c ansible-vault-with -n '__fish_seen_subcommand_from decrypt view rekey' -l require-id-match -d 'try only passwords with the label of the vault'
complete -c ansible-vault-with -n '__fish_seen_subcommand_from rekey create edit' -l any-label -d 'accept a password whose label differs from the vault'"'"'s'
complete -c ansible-vault-with -n '__fish_seen_subcommand_from rekey' -l new-vault-id -x -a '(__ansible_vault_ids)' -d 'the source of a new password'
complete -c ansible-vault-with -n '__fish_seen_subcommand_from rekey' -l new-vault-password-file -x -a '(__ansible_vault_files)' -d 'the source of a new password'
complete -c ansible-vault-with -n '__fish_seen_subcommand_from encrypt_string' -l stdin-name -x -d 'encrypt standard input, under this name'
complete -c ansible-vault-with -n '__fish_seen_subcommand_from encrypt_string' -s n -l name -x -d 'the name of the next STRING'
complete -c ansible-vault-with -n '__fish_seen_subcommand_from encrypt_string' -s p -l prompt -d 'ask for one more string, and for its name'
complete -c ansible-vault-with -n '__fish_seen_subcommand_from encrypt_string' -l show-input -d 'show the string of --prompt while you type it'
complete -c ansible-vault-with -n '__fish_seen_subcommand_from create edit' -l value -x -d 'set this YAML value from standard input'
complete -c ansible-vault-with -n '__fish_seen_subcommand_from create edit' -l resume -d 'reopen what the last edit could not store in FILE'
complete -c ansible-vault-with -n '__fish_seen_subcommand_from create' -l skip-tty-check -d ignored
# Here it ends.
