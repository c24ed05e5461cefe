# What the launchers at the top of the repository share, each of which names its program and sets `top`. It is on the way of each call, so it
# starts nothing but one `find`; what takes longer stands in the tools that it hands over to.

# Whether no source of any crate, and not the list of crates, is newer than the program. (One that is newer may belong to a crate that is not
# below the program, or be what it was: the tool `unproved` looks closer.)
is_plainly_current() {
  [ -x "$1" ] || return 1
  [ -z "$(find "$top/crates.txt" "$top"/crates/*/src "$top"/crates/*/specs "$top"/crates/*/proofs -newer "$1" -print -quit 2> /dev/null)" ]
}

# The program with these words, or the same without its proof.
run_program() {
  is_plainly_current "$program" && exec "$program" "$@"
  # (Python does not start over a folder as its input, so the program gets that by another number)
  { true 3<&0; } 2> /dev/null && exec "$top/tools/unproved" "$name" "$@" 3<&0 < /dev/null
  exec "$top/tools/unproved" "$name" "$@" 3<&-
}

# The words of `fuxi` that are a tool's, or ask about a command.
launch_tool() {
  local word=${1-} last=${!#}
  case $word in
    check | explain)
      if [ -d /dev/stdin ]; then
        echo "$name: standard input is a folder" >&2
        exit 4
      fi
      shift
      exec "$top/tools/$word" "$@"
      ;;
    status | jobs | machines | why) exec "$top/tools/status" "$@" ;;
    replay | storm | node | lease | work)
      case $last in --help | -h) exec "$top/tools/help" "$name" "$word" ;; esac
      ;;
  esac
  if [ "$word" = replay ] && [ $# = 2 ] && [ "$2" != - ]; then
    if [ -r "$2" ] && [ ! -d "$2" ]; then
      run_program replay < "$2"
    fi
    echo "$name: $2: no file that can be read" >&2
    exit 2
  fi
  [ "$word" != replay ] || [ "${2-}" != - ] || [ $# != 2 ] || run_program replay
}

launch() {
  local name=$1 program=$top/crates/$1/out/$1 status
  shift
  case ${1-} in
    help | --help | -h) shift; exec "$top/tools/help" "$name" "$@" ;;
    version | --version) exec "$top/tools/version" "$name" ;;
    build) shift; exec "$top/tools/build" "$name" "$@" ;;
  esac
  [ "$name" != fuxi ] || launch_tool "$@"
  case $name:${1-} in
    fuxi: | fuxi:replay | fuxi:storm | fuxi:node | fuxi:lease | fuxi:work) ;;
    fuxi:*)
      # (the program says what its words are, and this which of them was meant)
      (run_program "$@")
      status=$?
      [ $status != 2 ] || "$top/tools/help" --near "$1" >&2
      exit $status
      ;;
  esac
  run_program "$@"
}
