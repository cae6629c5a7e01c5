# bash completion for sdrtool: a disk, then a form; a file behind a redirection
_sdrtool() {
  local word=${COMP_WORDS[COMP_CWORD]} at=$COMP_CWORD k
  COMPREPLY=()
  # bash splits PATH=N into three words, and a path at each colon: at counts what is between spaces
  for ((k = 2; k <= COMP_CWORD; k++)); do
    case ${COMP_WORDS[k]} in [=:]*) at=$((at - 2)) ;; esac
  done
  case ${COMP_WORDS[COMP_CWORD - 1]} in '<' | *'>' | '>|')
    compopt -o filenames 2>/dev/null
    mapfile -t COMPREPLY < <(compgen -f -- "$word")
    return
    ;;
  esac
  if [ "$COMP_CWORD" = 1 ]; then
    compopt -o filenames 2>/dev/null
    mapfile -t COMPREPLY < <(compgen -W '- --help --version' -- "$word"; compgen -f -- "$word")
  elif [ "$at" = 2 ]; then
    case ${COMP_WORDS[1]} in
      --help | --version) ;;
      -) mapfile -t COMPREPLY < <(compgen -W dry -- "$word") ;;
      *) mapfile -t COMPREPLY < <(compgen -W 'format replay run load inspect recover dry' -- "$word") ;;
    esac
  elif [ "$at" = 3 ] && [ "${COMP_WORDS[COMP_CWORD - 1]}" = run ]; then
    mapfile -t COMPREPLY < <(compgen -W totals -- "$word")
  fi
}
complete -F _sdrtool sdrtool
