# bash completion of ssh_audit, made by checks/make_completion.py of the sources: change those.
_ssh_audit() {
    local command=${COMP_WORDS[1]} word=${COMP_WORDS[COMP_CWORD]} option=${COMP_WORDS[COMP_CWORD - 1]}
    local options= operands= words= before= given= at
    COMPREPLY=()
    # `--kind=auth` comes as three words.
    if [[ $word == = ]]; then
        word=
    elif [[ $option == = ]]; then
        option=${COMP_WORDS[COMP_CWORD - 2]}
    fi
    # An option stands once, and so does one of two that give the same. After `--` come operands.
    for ((at = 2; at < COMP_CWORD; at++)); do
        case ${COMP_WORDS[at]} in
        --) given=-- ;;
        --offer | --offer-file) given+=' --offer --offer-file ' ;;
        --signature | --signature-file) given+=' --signature --signature-file ' ;;
        --key | --fingerprint) given+=' --key --fingerprint ' ;;
        --*) given+=" ${COMP_WORDS[at]} " ;;
        esac
        [[ $given != -- ]] || break
    done
    case $command in
    show) options='--kind --file' ;;
    login) options='--file --offer --offer-file --signature --signature-file --algorithm --session --user --address --now --host --zone --vouch --empty-principals --rsa-minimum' ;;
    host) options='--file --offer --offer-file --signature --signature-file --hash --host --port --now --vouch --empty-principals --rsa-minimum' ;;
    sshsig) options='--body --message --namespace --vouch' ;;
    rewrite) options='--kind --file' ;;
    readable) options='--file' ;;
    hash) options='--file --salts' ;;
    admits) options='--key --fingerprint --user --address --now --host --zone --empty-principals --rsa-minimum --form' operands=files ;;
    trusts) options='--key --host --now --port --empty-principals --rsa-minimum --form' operands=files ;;
    review) options='--kind --now --key --zone --rsa-minimum --findings --fail-on --show --form --title --labels --files-from' operands=files ;;
    explain) operands=codes ;;
    esac
    [[ $given != -- ]] || option=
    if ((COMP_CWORD == 1)); then
        words='show login host sshsig rewrite readable hash admits trusts review explain --help'
    elif [[ $option == --* && " $options " == *" $option "* ]]; then
        case "$command $option" in
        'show --kind') words='key cert private sshsig' ;;
        'rewrite --kind' | 'review --kind') words='auth known' ;;
        *' --file' | *' --offer-file' | *' --signature-file' | *' --vouch' | *' --body' | *' --message' | *' --salts' | *' --key' | *' --files-from') words='files' ;;
        *' --user') words='users' ;;
        *' --host') words='hosts' ;;
        *' --empty-principals') words='any never' ;;
        'admits --form' | 'trusts --form') words='text json' ;;
        'review --form') words='text json line html' ;;
        *' --findings' | *' --fail-on')
            # Codes are joined by commas, and each is named once.
            compopt -o nospace
            if [[ $word == *,* ]]; then
                before=${word%,*},
            else
                words='all none'
            fi
            for at in F1 F2 F3 F4 F5 F6 F7 F8 F9 F10 F11 F12 F13 F14 F15 F16 F17 F18 F19 F20 F21 F22; do
                [[ ,$before == *,$at,* ]] || words+=" $before$at"
            done
            ;;
        *' --show') words='all found totals' ;;
        *' --labels') words='host,account' ;;
        esac
    elif [[ $given != -- && ($word == -* || -z $operands) ]]; then
        for at in $options --help; do
            [[ $given == *" $at "* ]] || words+=" $at"
        done
    elif [[ $operands == codes ]]; then
        words='usage granted rights command carry evidence N1 N2 N3 N4 N5 N6 vouched namespace G1 G3 G4 G6 G7 G8 G9 G10 G11 G12 G19 G13 G14 G15 G16 G17 G18 G20 L1 L2 L3 L4 L5 L6 L7 L8 L9 L10 L11 L12 L13 L14 L15 L16 F1 F2 F3 F4 F5 F6 F7 F8 F9 F10 F11 F12 F13 F14 F15 F16 F17 F18 F19 F20 F21 F22 A1 A2 A3 A4 A5 A6 A7 A8 A9 A10 A11 A12 value file vouch version K1 K2 K3 K4 K5 K6 K7 K8 C1 C2 C3 C4 C5 C6 C7 C8 C9 V1 V2 V3 V4 V5 B1 B2 B3 B4 B5 B6 B7 B8 B9 B10 B11 B12 B13 B14'
    else
        words=files
    fi
    case $words in
    files) compopt -o default ;;
    users) mapfile -t COMPREPLY < <(compgen -A user -- "$word") ;;
    hosts) mapfile -t COMPREPLY < <(compgen -A hostname -- "$word") ;;
    *) mapfile -t COMPREPLY < <(compgen -W "$words" -- "$word") ;;
    esac
} &&
    complete -F _ssh_audit ssh_audit
