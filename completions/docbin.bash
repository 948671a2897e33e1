# bash completion for docbin: the commands, then the names of files.
_docbin() {
  local commands="text streams check show props full equal edit gen outline title retitle export import join"
  if [ "$COMP_CWORD" -eq 1 ]; then
    mapfile -t COMPREPLY < <(compgen -W "$commands" -- "${COMP_WORDS[COMP_CWORD]}")
    return
  fi
  case "${COMP_WORDS[1]}:$COMP_CWORD" in
    text:2 | streams:2 | check:2 | show:2 | props:2 | full:2 | full:3 | equal:2 | equal:3 | edit:2 | edit:3 | edit:4 | gen:3 | outline:2 | title:2 | retitle:2 | retitle:4 | export:2 | export:3 | import:2 | import:3 | join:2 | join:3 | join:4)
      compopt -o filenames 2>/dev/null
      mapfile -t COMPREPLY < <(compgen -f -- "${COMP_WORDS[COMP_CWORD]}")
      ;;
    gen:2) COMPREPLY=() ;;
    *) COMPREPLY=() ;;
  esac
}
complete -F _docbin docbin
