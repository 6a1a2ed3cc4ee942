# Completion of fabricd's words for bash, and of those of fabricd-run and drain.
_fabricd_lines="state watch leave end find join link part give units create swap heal lose write resolve names log"

# The options that were not given yet.
_fabricd_options() {
  local option options="--folder --listen --page --key" left=""
  [ "${COMP_WORDS[1]}" = node ] && options+=" --parent --hold"
  for option in $options; do
    case " ${COMP_WORDS[*]:4:COMP_CWORD-4} " in
      *" $option "* | *" $option="*) ;;
      *) left+=" $option" ;;
    esac
  done
  mapfile -t COMPREPLY < <(compgen -W "$left" -- "$1")
}

# A word that the reader has to find: a second candidate keeps bash from inserting the first one.
_fabricd_show() {
  [ -n "$2" ] || COMPREPLY=("$1" " ")
}

_fabricd_behind_file() {
  local word=$1 before=${COMP_WORDS[COMP_CWORD - 1]}
  # Bash cuts words at `=`.
  if [ "$word" = "=" ]; then
    word=
  elif [ "$before" = "=" ]; then
    before=${COMP_WORDS[COMP_CWORD - 2]}
  fi
  case $before in
    --folder) mapfile -t COMPREPLY < <(compgen -d -- "$word") ;;
    --key) mapfile -t COMPREPLY < <(compgen -f -- "$word") ;;
    --listen | --page) _fabricd_show "ADDRESS" "$word" ;;
    --hold) _fabricd_show "TICKS" "$word" ;;
    *) _fabricd_options "$word" ;;
  esac
}

_fabricd() {
  local word=${COMP_WORDS[COMP_CWORD]}
  COMPREPLY=()
  if [ "$COMP_CWORD" -eq 1 ]; then
    mapfile -t COMPREPLY < <(compgen -W "node arbiter check ask again --help --version" -- "$word")
    return
  fi
  case ${COMP_WORDS[1]}:$COMP_CWORD in
    node:2) _fabricd_show "NODE" "$word" ;;
    arbiter:2) _fabricd_show "ARBITRATOR" "$word" ;;
    node:3 | arbiter:3 | check:2 | again:2) mapfile -t COMPREPLY < <(compgen -f -- "$word") ;;
    node:* | arbiter:*) _fabricd_behind_file "$word" ;;
    ask:2 | again:*) mapfile -t COMPREPLY < <(compgen -d -- "$word") ;;
    ask:*) mapfile -t COMPREPLY < <(compgen -W "$_fabricd_lines" -- "$word") ;;
  esac
}
complete -o filenames -F _fabricd fabricd fabricd-run
complete -d drain
