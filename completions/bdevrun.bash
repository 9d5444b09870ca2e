# Completions of bash for bdevrun: its words, files, and those options that may still follow.

_bdevrun() {
  local word=${COMP_WORDS[COMP_CWORD]} before=${COMP_WORDS[COMP_CWORD - 1]} first=${COMP_WORDS[1]} given options least
  COMPREPLY=()
  if [ "$COMP_CWORD" -eq 1 ]; then
    mapfile -t COMPREPLY < <(compgen -W 'run exercise generate --help --version' -- "$word")
    return
  fi
  case $first in
    run) least=4 ;;
    exercise | generate) least=3 ;;
    *) return ;;
  esac
  if [ "$COMP_CWORD" -lt "$least" ]; then
    if [ "$first" = run ]; then
      compopt -o filenames 2>/dev/null
      mapfile -t COMPREPLY < <(compgen -f -- "$word")
    fi
    return
  fi
  # Options stand in pairs with their numbers.
  if [ $(((COMP_CWORD - least) % 2)) -eq 1 ]; then
    case $before in
      --threads) mapfile -t COMPREPLY < <(compgen -W '1 2 3 4 5 6 7 8 9 10 11 12 13 14 15 16' -- "$word") ;;
      --reactors) mapfile -t COMPREPLY < <(compgen -W '1 2 3 4 5 6 7 8' -- "$word") ;;
    esac
    return
  fi
  given=" ${COMP_WORDS[*]:least:COMP_CWORD-least} "
  options=
  [[ $given == *' --threads '* ]] || options=--threads
  [[ $first == generate || $given == *' --reactors '* || $given == *' --schedule '* ]] || options+=' --reactors --schedule'
  mapfile -t COMPREPLY < <(compgen -W "$options" -- "$word")
}

complete -F _bdevrun bdevrun
