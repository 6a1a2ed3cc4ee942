# Completion of fabric's words for bash.
_fabric() {
  local word=${COMP_WORDS[COMP_CWORD]} names
  case $COMP_CWORD in
    1) names="replay trace writes audit node arbiter cluster generate drill" ;;
    # The words that follow are numbers: the reader is shown which.
    2)
      case ${COMP_WORDS[1]} in
        node) names="NODE" ;;
        arbiter) names="ARBITRATOR" ;;
        cluster) names="TURNS" ;;
        generate | drill) names="SEED" ;;
      esac
      ;;
    3)
      case ${COMP_WORDS[1]} in
        node | arbiter) names="TURNS" ;;
        generate | drill) names="NODES" ;;
      esac
      ;;
    4)
      case ${COMP_WORDS[1]} in
        generate | drill) names="ROUNDS" ;;
      esac
      ;;
  esac
  if [ "$COMP_CWORD" -eq 1 ]; then
    mapfile -t COMPREPLY < <(compgen -W "$names" -- "$word")
  elif [ -n "${names:-}" ] && [ -z "$word" ]; then
    # A second candidate keeps bash from inserting the first one.
    COMPREPLY=("$names" " ")
  else
    COMPREPLY=()
  fi
}
complete -F _fabric fabric
