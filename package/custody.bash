# bash completion for custody(1)
_custody() {
    local word=${COMP_WORDS[COMP_CWORD]} before=${COMP_WORDS[COMP_CWORD - 1]} words
    COMPREPLY=()
    case $before in
        --db | --to | --copied-to | --socket)
            compopt -o filenames 2> /dev/null
            mapfile -t COMPREPLY < <(compgen -f -- "$word")
            return ;;
        --limit | --until | --prefix | --port | --count | --idle | --most) return ;;
    esac
    if ((COMP_CWORD == 1)); then
        words="org-add org-limit org-copy org-remove org-list token-add token-list token-revoke serve check compact admin replay help --help --version"
    else
        case ${COMP_WORDS[1]} in
            org-add) words="--db --limit --help" ;;
            org-limit | org-list | token-list | token-revoke | check | admin) words="--db --help" ;;
            org-copy | compact) words="--db --to --help" ;;
            org-remove) words="--db --copied-to --force --help" ;;
            token-add) words="--db --until --prefix --help read write admin" ;;
            serve) words="--db --port --socket --count --unlimited --idle --most --log --check --operator --help" ;;
            replay) words="--help" ;;
            help) ((COMP_CWORD > 2)) || words="org-add org-limit org-copy org-remove org-list token-add token-list token-revoke serve check compact admin replay" ;;
        esac
    fi
    mapfile -t COMPREPLY < <(compgen -W "$words" -- "$word")
}
complete -F _custody custody
