# Completion of `fuxi` and the tools in bash: `source tools/shared/completion.bash`.

_fuxi() {
  local word=${COMP_WORDS[COMP_CWORD]} command=${COMP_WORDS[1]-} here
  local commands='replay storm node lease work check explain status jobs machines why build version help'
  here=$(dirname "$(readlink -f "${BASH_SOURCE[0]}")")
  COMPREPLY=()
  if [ "$COMP_CWORD" = 1 ]; then
    mapfile -t COMPREPLY < <(compgen -W "$commands" -- "$word")
    return
  fi
  case $command in
    replay | check | explain) mapfile -t COMPREPLY < <(compgen -f -- "$word") ;;
    node) [ "$COMP_CWORD" != 2 ] || mapfile -t COMPREPLY < <(compgen -W 'master agent app' -- "$word") ;;
    help) mapfile -t COMPREPLY < <(compgen -W "$(sed -n 's/^== //p' "$here/../help.txt")" -- "$word") ;;
    build) mapfile -t COMPREPLY < <(compgen -W '--jobs --again --forget' -- "$word") ;;
    status | jobs | machines | why)
      case ${COMP_WORDS[COMP_CWORD - 1]} in
        --folder) mapfile -t COMPREPLY < <(compgen -d -- "$word") ;;
        -o | --output) mapfile -t COMPREPLY < <(compgen -W 'table json' -- "$word") ;;
        *) mapfile -t COMPREPLY < <(compgen -W '--folder --output --watch' -- "$word") ;;
      esac
      ;;
  esac
}

complete -F _fuxi fuxi ./fuxi
