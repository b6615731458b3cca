# Completion of the words of `crystal` for bash: `source tools/completion/crystal.bash`. What isn't
# built yet is offered behind `help` alone.

_crystal() {
  local word=${COMP_WORDS[COMP_CWORD]} words=() files=
  COMPREPLY=()
  case $COMP_CWORD/${COMP_WORDS[1]} in
    1/*) words=(plan serial help --help --version) ;;
    2/help) words=(plan serial replay save make sample live) ;;
    2/plan | 2/serial | 3/serial) files=toml ;;
    4/serial) files=any ;;
  esac
  [ ${#words[@]} -gt 0 ] && mapfile -t COMPREPLY < <(compgen -W "${words[*]}" -- "$word")
  [ -n "$files" ] || return 0
  compopt -o filenames 2>/dev/null
  if [ "$files" = toml ]; then
    mapfile -t COMPREPLY < <(compgen -f -X '!*.toml' -- "$word"; compgen -d -- "$word")
  else
    mapfile -t COMPREPLY < <(compgen -f -- "$word")
  fi
}

complete -F _crystal crystal ./crystal
