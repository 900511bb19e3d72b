# shellcheck shell=bash
# Sourced: measurements (docs/FORMATS.md, Measurement), and where their paths lie in a program. It takes the variables `hpc`,
# the built program, and `folder`, one for files.

# head_bytes MEASURE: how many bytes its head has, by its version.
head_bytes() {
  case $(head -c 8 "$1") in
  HPCRUNM2) echo $((24 + 8 * $(word 16 "$1"))) ;;
  *) echo 24 ;;
  esac
}

# The words of a measurement behind its head, one a line: the number of the first column's paths is the first.
paths_of() { od -An -v --endian=little -t u4 -w4 -j "$(head_bytes "$1")" "$1"; }

# periods_of MEASURE: its events with their periods, as in PERIOD.
periods_of() {
  local all=(retired loads stores taken) row at text=
  if [ "$(head -c 8 "$1")" = HPCRUNM1 ]; then
    echo "retired:$(word 16 "$1")"
    return
  fi
  read -ra row <<<"$(numbers 4 20 $((8 * $(word 16 "$1"))) "$1")"
  for ((at = 0; at < ${#row[@]}; at += 2)); do text+="${text:+,}${all[row[at]]}:${row[at + 1]}"; done
  echo "$text"
}

# put_words NUMBER..: words of four bytes.
put_words() {
  local number bytes text=
  for number; do
    printf -v bytes '\\x%02x\\x%02x\\x%02x\\x%02x' \
      $((number & 255)) $((number >> 8 & 255)) $((number >> 16 & 255)) $((number >> 24 & 255))
    text+=$bytes
  done
  printf '%b' "$text"
}

# put_measure ELF END PC..: the measurement of one hart and one sample, with that end and these frames.
put_measure() {
  local elf=$1 end=$2
  shift 2
  printf HPCRUNM1
  put_words "$(size_of "$elf")" "$(word 24 "$elf")" 1 1 1 1 "$end" $# "$@"
}

# path_of HART MEASURE: the end and the frames of a hart's path, where it has one alone.
path_of() {
  paths_of "$2" | awk -v wanted="$1" '
    !paths { paths = $1; hart++; first = 1; if (!paths) paths = 0; ours = hart - 1 == wanted; single = paths == 1; part = 0; next }
    part == 0 { part = 1; next }
    part == 1 { if (ours && single) printf "%s", $1; part = 2; next }
    part == 2 { left = $1; part = 3; next }
    { if (ours && single) printf " %s", $1
      if (--left == 0) { part = 0; paths-- } }'
}

# told ELF END PC..: a call path as text, the innermost procedure first, with at most eight.
told() {
  # shellcheck disable=SC2154 # of the caller
  put_measure "$@" >"$folder/path" || return
  "$hpc" prof "$1" "$folder/path" 1 "$folder/path.db" 2>/dev/null </dev/null | awk '
    NR > 1 {
      sub(/^ *[0-9]+ +[0-9.]+ +[0-9]+ +/, "")
      label[NR] = $0
      last = NR
    }
    function add(name) {
      if (++names <= 8) text = text (names == 1 ? name " at " place : ", called at " place " by " name)
    }
    END {
      place = label[last]
      for (row = last - 1; row > 2; row--) {
        if (label[row] ~ /^call at /) place = substr(label[row], 9)
        else if (label[row] ~ /^\[I\] .* called at /) {
          at = label[row]
          sub(/.* called at /, "", at)
          add(substr(label[row], 5, length(label[row]) - length(at) - 15) " (inlined)")
          place = at
        } else add(label[row])
      }
      if (names > 8) text = text ", and " names - 8 " more"
      print text
    }'
}
