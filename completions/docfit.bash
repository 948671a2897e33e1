# bash completion for docfit: its options, then the names of files.
_docfit() {
  local word="${COMP_WORDS[COMP_CWORD]}"
  case "$word" in
    -*) mapfile -t COMPREPLY < <(compgen -W "--help --plain --version" -- "$word") ;;
    *) mapfile -t COMPREPLY < <(compgen -f -- "$word") ;;
  esac
}
complete -o filenames -F _docfit docfit
