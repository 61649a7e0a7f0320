# Completes the words of eggnet, and those of `eggnet tell FOLDER`.
_eggnet() {
  local word="${COMP_WORDS[COMP_CWORD]}"
  COMPREPLY=()
  if [ "$COMP_CWORD" -eq 1 ]; then
    mapfile -t COMPREPLY < <(compgen -W "@COMMANDS@ --help --version" -- "$word")
    return
  fi
  case "${COMP_WORDS[1]}:$COMP_CWORD" in
  tell:2 | show:2 | start-over:2 | promote:*)
    compopt -o filenames 2>/dev/null
    mapfile -t COMPREPLY < <(compgen -d -- "$word")
    ;;
  tell:3)
    mapfile -t COMPREPLY < <(compgen -W "@WORDS@" -- "$word")
    ;;
  run:2 | check:2 | doctor:2 | replay:2 | picture:2)
    compopt -o filenames 2>/dev/null
    mapfile -t COMPREPLY < <(compgen -f -- "$word")
    ;;
  help:2)
    mapfile -t COMPREPLY < <(compgen -W "@COMMANDS@" -- "$word")
    ;;
  esac
}
complete -F _eggnet eggnet
