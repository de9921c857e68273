# Completion of tbhost for bash: its commands, and the options and first words of each. Values of options are left to the reader, but
# for a file behind @.
_tbhost() {
    local word=${COMP_WORDS[COMP_CWORD]} before=${COMP_WORDS[COMP_CWORD - 1]} offered used
    COMPREPLY=()
    if [[ ${COMP_LINE:0:${COMP_POINT:-0}} =~ ' --'(op|key)[=\ ]+@([^\ ]*)$ ]]; then
        COMPREPLY=($(compgen -P @ -f -- "${BASH_REMATCH[2]}"))
        return
    fi
    case $before in --op | --key | --port | --workers | --links | --cusip) return ;; esac
    if [ "$COMP_CWORD" = 1 ]; then
        offered='award run serve import report migrate check follow register trial --help --version'
    else
        case ${COMP_WORDS[1]} in
        award) offered='full' ;;
        run) offered='--op' ;;
        serve) offered='--op --port --workers --links' ;;
        import) offered='--op --key' ;;
        report) offered='terms results awards bids holdings redemption --op --key --csv' ;;
        follow) offered='send take' ;;
        register) offered='--cusip' ;;
        migrate | check | trial) offered='' ;;
        *) return ;;
        esac
        # A first word is offered at its place alone, and an option once.
        [ "$COMP_CWORD" = 2 ] && offered="$offered --help" || offered=$(printf '%s\n' $offered | grep '^-')
        for used in "${COMP_WORDS[@]:2:COMP_CWORD - 2}"; do
            offered=$(printf '%s\n' $offered | grep -vxF -e "$used")
        done
    fi
    COMPREPLY=($(compgen -W "$offered" -- "$word"))
}
complete -F _tbhost tbhost
