# Completion for bash of the words of `bridge`:  source tools/bridge.bash
# It offers commands, languages, files, and of a PRISM model the labels and the constants that it leaves open.

# The constants of a PRISM file that have no expression, as NAME=.
_bridge_constants() {
  sed -n 's,//.*,,; s/^[[:space:]]*const[[:space:]]\{1,\}\(int\|double\|bool\)\{0,1\}[[:space:]]*\([A-Za-z_][A-Za-z0-9_]*\)[[:space:]]*;.*/\2=/p' "$1" 2>/dev/null
}

# The labels of a PRISM file.
_bridge_labels() {
  sed -n 's,//.*,,; s/.*label[[:space:]]*"\([A-Za-z_][A-Za-z0-9_]*\)".*/\1/p' "$1" 2>/dev/null
}

_bridge() {
  local cur=${COMP_WORDS[COMP_CWORD]} command=${COMP_WORDS[1]} place=$COMP_CWORD
  local files=3 # the place of the last file
  case $command in
    to-jani) files=3 ;;
    to-prism | to-prism-props) files=2 ;;
    check-path | carry-path) files=4 ;;
    check-rows) files=5 ;;
    check-bound) files=7 ;;
    generate) files=1 ;;
  esac
  COMPREPLY=()
  if [ "$place" -eq 1 ]; then
    mapfile -t COMPREPLY < <(compgen -W "to-jani to-prism to-prism-props check show simulate check-path check-rows check-bound carry-path specialise generate" -- "$cur")
  elif [ "$place" -eq 2 ] && [[ $command != to-* && $command != generate ]]; then
    mapfile -t COMPREPLY < <(compgen -W "prism jani" -- "$cur")
  elif [ "$place" -eq 6 ] && [ "$command" = check-bound ]; then
    mapfile -t COMPREPLY < <(compgen -W "$(_bridge_labels "${COMP_WORDS[3]}")" -- "$cur")
  elif [ "$place" -le "$files" ]; then
    mapfile -t COMPREPLY < <(compgen -f -- "$cur")
  elif [ "$place" -eq 4 ] && [ "$command" = simulate ]; then
    mapfile -t COMPREPLY < <(compgen -W "from given seed" -- "$cur")
  elif { [ "$place" -gt 4 ] || [ "$command" = specialise ]; } && [[ $command != to-* && $command != check && $command != generate && ${COMP_WORDS[2]} == prism ]]; then
    mapfile -t COMPREPLY < <(compgen -W "$(_bridge_constants "${COMP_WORDS[3]}")" -- "$cur")
    compopt +o filenames -o nospace # the value comes right behind the sign, and no part of these is quoted
  fi
}
complete -o filenames -F _bridge bridge
