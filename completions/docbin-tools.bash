# bash completion for docbin-tools: the commands, then their options and the names of files.
_docbin_tools() {
  local word="${COMP_WORDS[COMP_CWORD]}" options=""
  if [ "$COMP_CWORD" -eq 1 ]; then
    mapfile -t COMPREPLY < <(compgen -W "script positions many explain meta paragraph-runs --help --version" -- "$word")
    return
  fi
  case "${COMP_WORDS[1]}" in
    script) options="--check --edit --help --names --new" ;;
    positions) options="--help" ;;
    many) options="--all --help --into --jobs --json --tsv" ;;
    explain) options="--help" ;;
    meta) options="--help --json" ;;
    paragraph-runs) options="--gen --help --program --self-test" ;;
  esac
  compopt -o filenames 2>/dev/null
  case "$word" in
    -*) mapfile -t COMPREPLY < <(compgen -W "$options" -- "$word") ;;
    *) mapfile -t COMPREPLY < <(compgen -f -- "$word") ;;
  esac
}
complete -F _docbin_tools docbin-tools
