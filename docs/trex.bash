# Completes the commands of trex and their options in bash, and files behind < and >: source docs/trex.bash. Where the package bash-completion is
# installed, a copy named ~/.local/share/bash-completion/completions/trex is found by itself.
_trex() {
  local word=${COMP_WORDS[COMP_CWORD]} before=${COMP_WORDS[COMP_CWORD-1]} options='' option left=''
  COMPREPLY=()
  if [[ $before == [\<\>]* ]]; then
    compopt -o filenames 2>/dev/null
    mapfile -t COMPREPLY < <(compgen -f -- "$word")
    return
  elif [ "$COMP_CWORD" = 1 ]; then
    mapfile -t COMPREPLY < <(compgen -W 'run check analyze sample import wire session help' -- "$word")
    return
  fi
  case ${COMP_WORDS[1]} in
    run) options='--duration --limit --cores --base' ;;
    sample) options='--seed --streams --duration --limit --cores' ;;
    wire) options='--seed --loss --copy --delay' ;;
  esac
  # The word after an option is its number, and no option stands twice.
  [[ $before == --* ]] && return
  for option in $options; do
    [[ " ${COMP_WORDS[*]:2:COMP_CWORD-2} " == *" $option "* ]] || left+=" $option"
  done
  mapfile -t COMPREPLY < <(compgen -W "$left" -- "$word")
}
complete -F _trex trex
