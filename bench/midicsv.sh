#!/usr/bin/env bash
# What `record` writes, read by another reader of Standard MIDI Files: Debian's midicsv, which lists a file's events as
# lines. Ends with status 1 where a list is wrong. Run it by hand after `make`, where midicsv is installed; another
# program is named by its first word.
cd "$(dirname "$0")/.." || exit 1
program=$(realpath "${1:-./midibridge}")
[ -x "$program" ] || { echo "no $program: run make first"; exit 1; }
command -v midicsv >/dev/null || { echo "no midicsv: apt-get install midicsv"; exit 1; }
room=$(mktemp -d) || exit 1
trap 'rm -rf "$room"' EXIT
wrong=0

# a record of track 0 at a moment in microseconds
record() {
  local hex=${2// /}
  printf '%016x00%04x%s' "$1" $((${#hex} / 2)) "$hex"
}
bytes() { printf "$(printf '%s' "$1" | sed 's/../\\x&/g')"; }

# lists WHAT STATUS TIME RECORDS <LINES: a tape of these records is recorded with this status; the file's events are
# these, behind its tempo, and its track ends at this time
lists() {
  { printf 'MBT2'; bytes "$4"; } | "$program" record din >"$room/file.mid" 2>"$room/told"
  local status=$?
  [ $status = "$2" ] || { echo "$1: status $status, wanted $2"; wrong=1; }
  {
    printf '0, 0, Header, 0, 1, 1000\n1, 0, Start_track\n1, 0, Tempo, 1000000\n'
    sed 's/^/1, /'
    printf '1, %s, End_track\n0, 0, End_of_file\n' "$3"
  } >"$room/wanted"
  midicsv "$room/file.mid" | diff "$room/wanted" - || { echo "$1: other events"; wrong=1; }
}

lists 'a note and a clock, and a dump later' 0 2 "$(record 5000 '90 3C 64 F8')$(record 7000 'F0 01 F7')" <<'LINES'
0, Note_on_c, 0, 60, 100
0, System_exclusive_packet, 1, 248
2, System_exclusive, 2, 1, 247
LINES

lists 'messages of each kind' 0 0 "$(record 0 '80 3C 40 A1 3C 10 B2 07 7F C5 0A D6 20 E7 00 40 F1 05 F2 01 02 F3 04 F6')" <<'LINES'
0, Note_off_c, 0, 60, 64
0, Poly_aftertouch_c, 1, 60, 16
0, Control_c, 2, 7, 127
0, Program_c, 5, 10
0, Channel_aftertouch_c, 6, 32
0, Pitch_bend_c, 7, 8192
0, System_exclusive_packet, 2, 241, 5
0, System_exclusive_packet, 3, 242, 1, 2
0, System_exclusive_packet, 2, 243, 4
0, System_exclusive_packet, 1, 246
LINES

lists 'a status that runs' 0 1000 "$(record 999 '90 3C 64 40')$(record 1000000 '64 3C 00')" <<'LINES'
0, Note_on_c, 0, 60, 100
1000, Note_on_c, 0, 64, 100
1000, Note_on_c, 0, 60, 0
LINES

lists 'a clock inside a dump' 0 3 "$(record 0 'F0 01 F8 02')$(record 3000 'F7')" <<'LINES'
0, System_exclusive_packet, 1, 248
3, System_exclusive, 3, 1, 2, 247
LINES

lists 'a dump that a note breaks off' 0 0 "$(record 5000 'F0 01 90 3C 64')" <<'LINES'
0, System_exclusive_packet, 2, 240, 1
0, Note_on_c, 0, 60, 100
LINES

lists 'a tape that is cut inside a dump' 5 8 "$(record 0 'F8')$(record 8000 'F0 01 02' | sed 's/..$//')" <<'LINES'
0, System_exclusive_packet, 1, 248
8, System_exclusive_packet, 2, 240, 1
LINES

lists 'the greatest delta' 0 268435455 "$(record 0 'F8')$(record 268435455000 'FA')" <<'LINES'
0, System_exclusive_packet, 1, 248
268435455, System_exclusive_packet, 1, 250
LINES

[ $wrong = 0 ] && echo 'midicsv reads the same events'
exit $wrong
