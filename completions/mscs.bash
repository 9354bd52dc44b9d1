# Completes the commands of mscs in bash: source this file.
_mscs() {
    COMPREPLY=()
    if [ "$COMP_CWORD" -eq 1 ]; then
        mapfile -t COMPREPLY < <(compgen -W "session serve replay drill format showlog export ask" -- "$2")
        return
    fi
    case "${COMP_WORDS[1]}:$COMP_CWORD" in
        serve:2 | ask:2) mapfile -t COMPREPLY < <(compgen -W "127.0.0.1:27110" -- "$2") ;;
        serve:3) mapfile -t COMPREPLY < <(compgen -W "1" -- "$2") ;;
        session:2 | serve:4) mapfile -t COMPREPLY < <(compgen -W "0" -- "$2") ;;
        drill:2) mapfile -t COMPREPLY < <(compgen -W "7" -- "$2") ;;
        drill:3) mapfile -t COMPREPLY < <(compgen -W "2000 100000" -- "$2") ;;
        format:2) mapfile -t COMPREPLY < <(compgen -W "4096 1048576 16777216" -- "$2") ;;
    esac
}
complete -F _mscs mscs ./mscs
