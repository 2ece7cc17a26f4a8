# SPDX-License-Identifier: Apache-2.0
# bash completes the commands and options of seal_file, and otherwise the names of files.
_seal_file() {
    local words='seal open inspect keygen --help --version' word=${COMP_WORDS[COMP_CWORD]}
    COMPREPLY=()
    if [ "$COMP_CWORD" -gt 1 ]; then
        case ${COMP_WORDS[COMP_CWORD - 1]} in -k | --key | --passphrase-file | -o | --output | --aad | --range) return ;; esac
        [[ $word = -* ]] || return
        case ${COMP_WORDS[1]} in
            seal) words='--key --passphrase --passphrase-file --output --force --aad --progress' ;;
            open) words='--key --passphrase --passphrase-file --output --force --aad --progress --range' ;;
            inspect) words='--key' ;;
            keygen) words='--output' ;;
        esac
    fi
    mapfile -t COMPREPLY < <(compgen -W "$words" -- "$word")
}
complete -o default -F _seal_file seal_file
