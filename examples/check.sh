#!/usr/bin/env bash
# Holds the tables of this folder's README against the files and the built program: each file has the bytes that stand
# there, and each becomes what stands there; and each command that this README or the one above shows prints what stands
# below it. Run it after `make`; another program is named by its first word.
program=$(realpath "${1:-$(dirname "$0")/../midibridge}")
cd "$(dirname "$0")" || exit 1
[ -x "$program" ] || { echo "no $program: run make first"; exit 1; }
wrong=0
rows=0

hex() { od -An -v -tx1 | tr -d ' \n'; }

while IFS='|' read -r _ file bytes _ becomes _; do
  file=$(tr -d ' `' <<<"$file")
  rows=$((rows + 1))
  wanted=$(tr -d ' `' <<<"$bytes")
  found=$(hex <"$file")
  [ "$found" = "$wanted" ] || { echo "$file: its bytes are $found"; wrong=1; }
  # what it becomes are the last words in backquotes
  wanted=$(sed 's/.*`\([^`]*\)`[^`]*$/\1/; s/ //g' <<<"$becomes")
  case $file in
    *.din) words="convert din usb:0" ;;
    *.fw) words="convert fw:0 din" ;;
    *.ble) words="convert ble din" ;;
    dump.mbt | drums.mbt) words="migrate" ;;
    *.mbt) words="filter ${file%.mbt}.rules din" ;;
    *) words="convert usb:0 din" ;;
  esac
  found=$("$program" $words <"$file" 2>/dev/null | hex)
  [ "$found" = "$wanted" ] || { echo "$file: it becomes $found"; wrong=1; }
done < <(grep '^| `.*\.\(din\|usb\|fw\|ble\|mbt\)`' README.md)

# The commands that a page shows, each with the lines below it and what it says on standard error.
shown=0
for page in README.md examples/README.md; do
  while IFS= read -r command; do
    shown=$((shown + 1))
    wanted=$(awk -v command="\$ ${command//\\/\\\\}" \
      '$0 == command { on = 1; next } /^[$]|^```/ { on = 0 } on' ../$page)
    found=$(cd .. && eval "${command//.\/midibridge/\"\$program\"}" 2>&1)
    [ "$found" = "$wanted" ] || { echo "$page, $command: it prints $found"; wrong=1; }
  done < <(sed -n 's/^[$] \(\(\.\/midibridge\|printf\|cat\|od\) .*\)/\1/p' ../$page)
done

# what `run` of README.md above writes
rm -f ../merged.din

[ "$rows" -gt 0 ] && [ "$shown" -gt 0 ] || { echo "no rows"; exit 1; }
[ "$wrong" = 0 ] && echo "$rows examples and $shown commands are as they are shown"
exit "$wrong"
