#!/usr/bin/env bash
# Holds what `make install` puts beside the program against it: the man page is laid out without a warning, the page and
# the completion have each command that the program has and no other, and the completion offers the words of a command.
# Ends with status 1 where one is wrong. Run it after `make`; another program is named by its first word.
cd "$(dirname "$0")/.." || exit 1
program=$(realpath "${1:-./midibridge}")
[ -x "$program" ] || { echo "no $program: run make first"; exit 1; }
wrong=0
fail() {
  echo "$*"
  wrong=1
}

page=man/midibridge.1
warned=""
if command -v mandoc >/dev/null; then
  warned=$(mandoc -T lint -W warning "$page" 2>&1)
elif command -v man >/dev/null; then
  warned=$(man --warnings=w -E UTF-8 -l -Tutf8 -Z "$page" 2>&1 >/dev/null)
else
  echo "neither mandoc nor man is here, so how the page is laid out isn't looked at"
fi
[ -z "$warned" ] || fail "$page: $warned"

# A command is a word of the usage line which the program doesn't refuse with words that suit it.
commands=()
for name in $("$program" 2>&1 </dev/null | grep -o '\(midibridge\|/\) [a-z]*' | sed 's/.* //'); do
  case $name in
    convert) words="din din" ;;
    selftest) words="0 0" ;;
    migrate | play) words="" ;;
    run) words="/nowhere" ;;
    filter) words="/nowhere din" ;;
    *) words="din" ;;
  esac
  # shellcheck disable=SC2086
  "$program" "$name" $words >/dev/null 2>&1 </dev/null
  [ $? = 2 ] || commands+=("$name")
done
wanted=$(printf '%s\n' "${commands[@]}" | sort)
[ "${#commands[@]}" -gt 1 ] || fail "the usage line has no commands"
found=$(sed -n '/^\.SH SYNOPSIS/,/^\.SH DESC/s/^\\fBmidibridge \([a-z]*\).*/\1/p' "$page" | sort)
[ "$found" = "$wanted" ] || fail "$page has the commands" $found
found=$(sed -n 's/.* commands="\(.*\)"/\1/p' completion/midibridge.bash | tr ' ' '\n' | sort)
[ "$found" = "$wanted" ] || fail "the completion has the commands" $found

# offers LINE WORDS: behind this line the completion offers these words
source completion/midibridge.bash
offers() {
  COMP_LINE=$1 COMP_POINT=${#1} COMPREPLY=()
  _midibridge 2>/dev/null
  [ "${COMPREPLY[*]}" = "$2" ] || fail "behind '$1' the completion offers '${COMPREPLY[*]}'"
}
COMP_WORDBREAKS=$' \t\n"\'><=;|&(:'
offers "midibridge c" "convert check"
offers "midibridge convert t" "tally"
offers "midibridge convert tally d" "din"
offers "midibridge convert din usb:1" "1 10 11 12 13 14 15"
offers "midibridge check b" "ble ble/"
offers "midibridge check din d" ""
offers "midibridge play " ""
offers "midibridge f" "filter"
offers "midibridge filter " ""
offers "midibridge filter examples/stage.rules d" "din"
[ "$wrong" = 0 ] && echo "the man page and the completion are as the program"
exit "$wrong"
