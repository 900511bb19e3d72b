# shellcheck shell=bash
# Sourced: which words of a command are names of files.

# The numbers of the words, from 1, that name the files which a command reads.
places_read() {
  case $1 in
  profile | run | live | trace) seq 2 4 ;;
  prof | timeline) seq 2 3 ;;
  merge) echo 2; seq 5 $# ;;
  struct | view | stats) echo 2 ;;
  esac
}

# The files that a command reads, each ended by a NUL.
files_read() {
  local place
  for place in $(places_read "$@"); do printf '%s\0' "${!place}"; done
}

# The number of the word, from 1, that names the file which a command stores, or nothing.
place_stored() {
  case $1 in
  profile) echo 7 ;;
  live) echo 8 ;;
  run | trace) echo 6 ;;
  prof) echo 5 ;;
  merge) echo 4 ;;
  esac
}

file_stored() {
  local place
  place=$(place_stored "$1")
  [ -z "$place" ] || printf '%s\n' "${!place}"
}
