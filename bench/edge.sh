#!/usr/bin/env bash
# What the built program does at its edges: bad words, and streams that fail or come slowly. Ends with status 1 where
# one answer is wrong. Run it after `make`; another program is named by its first word.
cd "$(dirname "$0")/.." || exit 1
program=$(realpath "${1:-./midibridge}")
[ -x "$program" ] || { echo "no $program: run make first"; exit 1; }
room=$(mktemp -d) || exit 1
trap 'rm -rf "$room"' EXIT
wrong=0

# expect WHAT WANTED FOUND
expect() {
  [ "$2" = "$3" ] && return
  echo "$1: wanted '$2', found '$3'"
  wrong=1
}
hex() { od -An -v -tx1 | tr -d ' \n'; }
bytes() { printf "$(printf '%s' "$1" | sed 's/../\\x&/g')"; }

# Words that are no command: status 2, the usage on standard error, nothing on standard output.
refuse() {
  printf '\x90\x3c\x64' | "$program" "$@" >"$room/out" 2>"$room/err"
  expect "words '$*': status" 2 $?
  expect "words '$*': standard output" "" "$(hex <"$room/out")"
  [ -s "$room/err" ] || expect "words '$*': standard error" "some usage" ""
}
refuse
refuse convert
refuse convert din
refuse convert din usb
refuse convert din usb:
refuse convert din usb:16
refuse convert din fw:64
refuse convert din fw:00
refuse convert din usb:00
refuse convert din usb:01
refuse convert din usb:-1
refuse convert din "usb:1 "
refuse convert din usb:0 midi
refuse convert din usb:0 usb:16
refuse convert din din din din din din din din din din din
refuse convert tally
refuse convert tally din
refuse convert din tally din
refuse selftest
refuse selftest 1
refuse selftest 01 5
refuse selftest 1 2 3
refuse selftest 2147483648 1
refuse selftest 1 1000001
refuse run
refuse run r.txt r.txt
refuse convert usb:16 din
refuse check
refuse check din din
refuse check usb:16
refuse trace
refuse trace midi
refuse convert din USB:0
refuse convert "" usb:0
refuse Convert din usb:0
refuse --help
refuse --version
refuse convert din $'usb:\xff'
refuse $'\xff\xfe' din usb:0

# The examples, as examples/README.md has them.
for file in examples/*.din; do
  wanted=$(grep -F "\`$(basename "$file")\`" examples/README.md | sed 's/.*: `\([^`]*\)` |$/\1/; s/.*`\([^`]*\)` |$/\1/' | tr -d ' ')
  expect "$file" "$wanted" "$("$program" convert din usb:0 <"$file" | hex)"
  given=$(grep -F "\`$(basename "$file")\`" examples/README.md | cut -d'`' -f4 | tr -d ' ')
  expect "the bytes of $file" "$given" "$(hex <"$file")"
done

# Standard input that can't be read: status 3, nothing written, a word on standard error.
"$program" convert din usb:0 <"$room" >"$room/out" 2>"$room/err"
expect "a folder as standard input: status" 3 $?
expect "a folder as standard input: standard output" "" "$(hex <"$room/out")"
[ -s "$room/err" ] || expect "a folder as standard input: standard error" "a line" ""
"$program" convert din usb:0 <&- >"$room/out" 2>"$room/err"
expect "no standard input: status" 3 $?

# Standard output that takes nothing: status 4.
for words in "convert din usb:0" "convert din din" "trace din" "check usb:0" "selftest 0 1"; do
  printf '\x00\x90\x3c\x64' | "$program" $words >/dev/full 2>"$room/err"
  expect "$words to a full device: status" 4 $?
  [ -s "$room/err" ] || expect "$words to a full device: standard error" "a line" ""
done
printf '\x90\x3c\x64' | "$program" convert din usb:0 >&- 2>"$room/err"
expect "no standard output: status" 4 $?
# with nothing to write, nothing fails
"$program" convert din usb:0 </dev/null >/dev/full 2>"$room/err"
expect "nothing to write to a full device: status" 0 $?

# A reader that goes away: status 4, and what it took is a front of the conversion.
yes "$(bytes 903c64)" | head -c 1000000 >"$room/in"
"$program" convert din usb:0 <"$room/in" >"$room/whole"
mkfifo "$room/pipe"
head -c 5000 <"$room/pipe" >"$room/front" &
"$program" convert din usb:0 <"$room/in" >"$room/pipe" 2>"$room/err"
expect "a pipe that is closed: status" 4 $?
wait
expect "a pipe that is closed: bytes" 5000 "$(wc -c <"$room/front")"
cmp -s -n 5000 "$room/front" "$room/whole" || expect "a pipe that is closed" "a front of the conversion" "other bytes"

# A file that may not grow past its limit: what stands there is a front of the conversion, filled to the limit.
(
  trap '' XFSZ
  ulimit -f 8
  "$program" convert din usb:0 <"$room/in" >"$room/limited" 2>"$room/err"
  exit $?
)
expect "a file at its limit: status" 4 $?
expect "a file at its limit: bytes" 8192 "$(wc -c <"$room/limited")"
cmp -s -n 8192 "$room/limited" "$room/whole" || expect "a file at its limit" "a front of the conversion" "other bytes"

# A pipe that is written slowly: the packets of each piece are there before the next byte comes.
mkfifo "$room/slow" "$room/answers"
"$program" convert din usb:2 <"$room/slow" >"$room/answers" &
exec 3>"$room/slow" 4<"$room/answers"
# answer GIVEN WANTED: the packets that come within two seconds of some bytes
answer() {
  local found
  bytes "$1" >&3
  found=$(timeout 2 head -c $((${#2} / 2)) <&4 | hex)
  expect "a slow pipe at $1" "$2" "$found"
}
answer 903c64 29903c64
answer 3c "" # a message that isn't whole yet
answer 00 29903c00
answer f00102 24f00102
answer 03f8 2ff80000
answer 04f7 270304f7
answer f001 ""
exec 3>&-
expect "a slow pipe at its end" 2ff000002f010000 "$(hex <&4)"
exec 4<&-
wait $!
expect "a slow pipe: status" 0 $?

# The same of a listing: each line is there as it becomes known.
"$program" trace usb:2 <"$room/slow" >"$room/answers" 2>"$room/err" &
exec 3>"$room/slow" 4<"$room/answers"
# line GIVEN WANTED: the line that comes within two seconds of some bytes
line() {
  local found
  bytes "$1" >&3
  read -r -t 2 found <&4
  expect "a slow listing at $1" "$2" "$found"
}
line 29903c64 "0 short 90 3C 64"
line 28 "" # a packet that isn't whole yet
line 90 ""
line 4000 "0 short 90 40 00"
line 20 "note 4 cin-mismatch"
exec 3>&- 4<&-
wait $!

# Notes are answered, and told.
bytes 3c | "$program" check din >"$room/out" 2>"$room/err"
expect "a stray byte: status" 1 $?
expect "a stray byte: standard output" "0 stray-data" "$(cat "$room/out")"

# A long input without line feeds becomes exactly what it must: three bytes of a message are one packet each time.
yes "$(bytes 903c64)" | tr -d '\n' | head -c 300000 >"$room/long"
yes "$(bytes 09903c64)" | tr -d '\n' | head -c 400000 >"$room/packets"
"$program" convert din usb:0 <"$room/long" >"$room/out" 2>"$room/err"
expect "a long input: status" 0 $?
cmp -s "$room/out" "$room/packets" || expect "a long input" "its packets" "other bytes"
"$program" convert usb:0 din usb:1 usb:0 <"$room/packets" >"$room/out" 2>"$room/err"
expect "a long input through four specs: status" 0 $?
cmp -s "$room/out" "$room/packets" || expect "a long input through four specs" "the same packets" "other bytes"

# Standard input in two reads, the second of a few bytes: none is lost where a read isn't full.
{ head -c 1025 "$room/long"; sleep 0.1; tail -c +1026 "$room/long" | head -c 7; } | "$program" convert din usb:0 >"$room/out"
expect "an uneven input: bytes" 1376 "$(wc -c <"$room/out")"
cmp -s -n 1376 "$room/out" "$room/packets" || expect "an uneven input" "its packets" "other bytes"

# A write that takes one byte of four: the others are written too.
if command -v strace >/dev/null && strace -e inject=write:retval=1:when=1 true >/dev/null 2>&1; then
  bytes 903c64903c64 | strace -o "$room/calls" -e trace=write -e inject=write:retval=1:when=1 "$program" convert din usb:0 >"$room/out"
  # the first byte is only said to be written
  expect "a short write" 903c6409903c64 "$(hex <"$room/out")"
fi

# The tally, before the text.
bytes 09903c6409 | "$program" convert tally usb:0 din >"$room/out" 2>"$room/err"
expect "a tally: status" 5 $?
expect "a tally" "0 usb:0 5,1 din 3,input is cut," "$(tr '\n' ',' <"$room/err")"
bytes 903c64 | "$program" convert tally din din >"$room/out" 2>/dev/full
expect "a tally to a full device: status" 4 $?
expect "a tally to a full device: standard output" 903c64 "$(hex <"$room/out")"

# A recording that stops inside a packet: status 5, and what it has stands there.
bytes 09903c6409 | "$program" convert usb:0 din >"$room/out" 2>"$room/err"
expect "a cut recording: status" 5 $?
expect "a cut recording: standard output" 903c64 "$(hex <"$room/out")"
expect "a cut recording: standard error" "input is cut" "$(cat "$room/err")"

# A tape of two records, cut behind each of its bytes: what stands whole of it is written, and the answer is 5 but where
# a magic or a record ends.
bytes 4d42543100000000000000050001f800000000000000070003903c64 >"$room/tape"
"$program" migrate <"$room/tape" >"$room/whole" 2>"$room/err"
expect "a tape: status" 0 $?
expect "a tape" 4d4254320000000000001388000001f80000000000001b58000003903c64 "$(hex <"$room/whole")"
for ((cut = 0; cut < $(wc -c <"$room/tape"); cut++)); do
  head -c "$cut" "$room/tape" | "$program" migrate >"$room/out" 2>"$room/err"
  status=$?
  # the magic, a header of 10 bytes that becomes 11, a byte, a header, three bytes
  if ((cut < 4)); then given=0; elif ((cut < 14)); then given=4; elif ((cut < 15)); then given=15
  elif ((cut < 25)); then given=16; else given=$((cut + 2)); fi
  if ((cut == 4 || cut == 15)); then wanted=0; else wanted=5; fi
  expect "a tape cut at $cut: status" "$wanted" "$status"
  expect "a tape cut at $cut" "$(head -c "$given" "$room/whole" | hex)" "$(hex <"$room/out")"
done

# A tape in the second form stays as it is: 256 tracks in turn, and a record of 65,535 bytes.
{ bytes 4d425432
  for ((track = 0; track < 256; track++)); do bytes "$(printf '%016x%02x0001f8' "$track" "$track")"; done
  bytes 00000000000001000affff
  head -c 65535 /dev/zero; } >"$room/tape"
"$program" migrate <"$room/tape" >"$room/out" 2>"$room/err"
expect "a long tape: status" 0 $?
cmp -s "$room/out" "$room/tape" || expect "a long tape" "the same bytes" "other bytes"

# A fault of a tape is named, and what stands before it is written.
{ cat "$room/tape"; bytes 00000000000000000a000190; } | "$program" migrate >"$room/out" 2>"$room/err"
expect "a moment that falls: status" 7 $?
expect "a moment that falls: standard error" "tape -: back 256 0" "$(cat "$room/err")"
cmp -s "$room/out" "$room/tape" || expect "a moment that falls" "the tape before it" "other bytes"
"$program" migrate <"$room/tape" >/dev/full 2>"$room/err"
expect "a tape to a full device: status" 4 $?

[ "$wrong" -eq 0 ] && echo "the edges are as they should be"
exit $wrong
