# bash completion for docview: its options, then the names of files.
_docview() {
  local word="${COMP_WORDS[COMP_CWORD]}"
  case "$word" in
    -*) mapfile -t COMPREPLY < <(compgen -W "--hidden --headers --strict --pictures --force --json --help --version" -- "$word") ;;
    *) mapfile -t COMPREPLY < <(compgen -W "text markdown html meta" -- "$word"; compgen -f -- "$word") ;;
  esac
}
complete -o filenames -F _docview docview
