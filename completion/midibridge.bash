# Completion of midibridge's words for bash.
_midibridge() {
  local commands="convert check trace migrate record play guard filter run selftest"
  local specs="din ble ble/" number
  for number in {0..15}; do specs+=" usb:$number"; done
  for number in {0..63}; do specs+=" fw:$number"; done

  # bash cuts words at the colon of a spec, so they are counted here
  local -a words
  read -ra words <<<"${COMP_LINE:0:COMP_POINT}"
  [[ ${COMP_LINE:0:COMP_POINT} == *[[:space:]] ]] && words+=("")
  local current=${words[-1]} offered=""
  case $((${#words[@]} - 1)):${words[1]} in
    1:*) offered=$commands ;;
    2:convert) offered="tally $specs" ;;
    2:check | 2:trace | 2:record | 2:guard | 3:filter | *:convert) offered=$specs ;;
    2:filter | 2:run) compopt -o default ;; # bash offers files where nothing else is
  esac
  mapfile -t COMPREPLY < <(compgen -W "$offered" -- "$current")
  [[ ${COMPREPLY[*]} == ble/ ]] && compopt -o nospace
  # what stands before the last colon is a word of its own to bash
  [[ $COMP_WORDBREAKS == *:* ]] && COMPREPLY=("${COMPREPLY[@]#"${current%"${current##*:}"}"}")
  return 0
}
complete -F _midibridge midibridge
