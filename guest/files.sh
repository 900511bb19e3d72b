#!/bin/sh
# files.sh WORD..: the files that words of a command line name, one to a line. A name with spaces is several words: as
# many as make the name of a file that there is. In what is printed a space is +SPACE+, since make takes it for the end
# of a word.
set -f
while [ $# -gt 0 ]; do
  name= count=0 found=$1 taken=1
  for word; do
    name=$name${name:+ }$word count=$((count + 1))
    if [ -f "$name" ]; then
      found=$name taken=$count
      break
    fi
  done
  printf '%s\n' "$found" | sed 's/ /+SPACE+/g'
  shift $taken
done
