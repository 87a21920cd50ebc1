# Completion of the words of the program `asn1` for bash.

_asn1() {
    local word=${COMP_WORDS[COMP_CWORD]} before=${COMP_WORDS[COMP_CWORD - 1]} task=${COMP_WORDS[1]} words=
    local -A options=(
        [decode]="--rules --type --from --to --input --rest --depth --parts --help"
        [encode]="--rules --type --to --input --depth --help"
        [check]="--help"
        [types]="--sizes --help"
        [show]="--type --depth --help"
        [dump]="--from --input --depth --parts --help"
        [tables]="--rules --type --check --depth --help"
    )
    if [ "$COMP_CWORD" = 1 ]; then
        mapfile -t COMPREPLY < <(compgen -W "${!options[*]} --help" -- "$word")
        return
    fi
    case $before in
        --rules) words="der uper aper" ;;
        --from) words="binary hex base64 pem" ;;
        --to) [ "$task" = decode ] && words="json text tree" || words="binary hex base64 pem" ;;
        --type) words=$(_asn1_types) ;;
        --depth | --parts) return ;;
        --input | --check)
            mapfile -t COMPREPLY < <(compgen -f -- "$word")
            return
            ;;
        *)
            case $word in
                -*) words=${options[$task]} ;;
                *)
                    mapfile -t COMPREPLY < <(compgen -f -X '!*.asn1' -- "$word"; compgen -d -- "$word")
                    return
                    ;;
            esac
            ;;
    esac
    mapfile -t COMPREPLY < <(compgen -W "$words" -- "$word")
}

# Prints the types of the modules among the words.
_asn1_types() {
    local file modules=()
    for file in "${COMP_WORDS[@]}"; do
        [[ $file == *.asn1 && -f $file ]] && modules+=("$file")
    done
    [ ${#modules[@]} = 0 ] || "${COMP_WORDS[0]}" types "${modules[@]}" 2>/dev/null
}

complete -o filenames -F _asn1 asn1
