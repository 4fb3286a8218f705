# Completions of rbc for bash.
_rbc() {
  local word=${COMP_WORDS[COMP_CWORD]} before=${COMP_WORDS[COMP_CWORD - 1]}
  if [ "$COMP_CWORD" -eq 1 ]; then
    COMPREPLY=($(compgen -W "steps check decode draw run show track serve journal help --help --version" -- "$word"))
    return
  fi
  case $before in
    --history | --journal) compopt -o default; return ;;
    --sweep) COMPREPLY=($(compgen -W "yes no" -- "$word")); return ;;
    --port | --connections | --workers | --patience) return ;;
  esac
  case ${COMP_WORDS[1]} in
    steps) COMPREPLY=($(compgen -W "--help" -- "$word")) ;;
    check) COMPREPLY=($(compgen -W "--help" -- "$word")) ;;
    decode) COMPREPLY=($(compgen -W "--json --help" -- "$word")) ;;
    draw) COMPREPLY=($(compgen -W "--help" -- "$word")) ;;
    run) COMPREPLY=($(compgen -W "--history --from --journal --entries --help" -- "$word")); compopt -o default ;;
    show) COMPREPLY=($(compgen -W "--each --page --help" -- "$word")); compopt -o default ;;
    track) COMPREPLY=($(compgen -W "--lines --help" -- "$word")); compopt -o default ;;
    serve) COMPREPLY=($(compgen -W "--port --stay --connections --workers --sweep --patience --log --from --journal --entries --page --page-address --help" -- "$word")); compopt -o default ;;
    journal) COMPREPLY=($(compgen -W "--lines --follow --first --renew --close --help" -- "$word")); compopt -o default ;;
    help) COMPREPLY=($(compgen -W "steps check decode draw run show track serve journal help" -- "$word")) ;;
  esac
}
complete -F _rbc rbc
