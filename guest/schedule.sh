#!/bin/sh
# schedule.sh HARTS FILE: the schedule by which so many harts run. One that a person wrote or changed stays as it is.
harts=$1 file=$2

# schedule N: one hart runs by itself, and several take turns of 10,000 instructions: 1,000,000,000 in all, or a
# little more.
schedule() {
  awk -v harts="$1" 'BEGIN {
    print "harts " harts
    if (harts == 1) print "0 1000000000"
    else
      for (turn = 0; turn * harts * 10000 < 1000000000; turn++)
        for (hart = 0; hart < harts; hart++) print hart, 10000
  }'
}

if [ -e "$file" ]; then
  old=$(sed -n 's/^harts \([0-9][0-9]*\)$/\1/p' "$file" | head -n 1)
  [ "$old" != "$harts" ] || exit 0
  if ! schedule "${old:-0}" | cmp -s - "$file"; then
    echo "$file is a schedule of your own for ${old:-other} harts, and not for $harts: it stays as it is" >&2
    exit 0
  fi
fi
schedule "$harts" >"$file"
