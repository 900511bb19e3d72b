# awk -v at=LINE -f schedule.awk SCHEDULE: says what is wrong with the line of a schedule that the program refuses.
# The rules are those of docs/FORMATS.md, Schedule.

function tell(text) { print text; told = 1; exit }

# digits alone, without a leading zero, and at most ten
function is_number(word) { return word ~ /^[0-9]+$/ && (word == "0" || word !~ /^0/) && length(word) <= 10 }

function tell_number(name, word, least, most) {
  if (word ~ /^0[0-9]+$/) tell(name " is written without leading zeros, and not '" word "'")
  if (word !~ /^[0-9]+$/) tell(name " is digits alone, and not '" substr(word, 1, 40) "'")
  tell(name " is " least " to " most ", and not " substr(word, 1, 40))
}

function tell_ends() {
  if ($0 ~ /\r$/) tell("the line ends in CR LF; lines end in LF alone (sed -i 's/\\r$//' takes the CRs away)")
}

function tell_harts(  number) {
  if ($0 ~ /^\177ELF/) tell("this is a program, and not a schedule")
  if ($0 ~ /^HPCPROF[123]/) tell("this is a database, and not a schedule")
  if ($0 ~ /^HPCRUNM[12]/) tell("this is a measurement, and not a schedule")
  if ($0 ~ /^\357\273\277/) tell("the file begins with a byte order mark, which a schedule hasn't")
  tell_ends()
  if ($0 !~ /^harts /) tell("the first line that is not empty and no comment is 'harts N', with N from 1 to 64")
  number = substr($0, 7)
  if (number ~ /^[0-9]+ +[^ ]/) tell("a word too many: the line is 'harts N'; a comment has a line of its own, with # at its beginning")
  if (number ~ /[ \t]/) tell("the line is 'harts N', with one space and none behind N")
  tell_number("N of 'harts N'", number, 1, 64)
}

function tell_slice(  count, word, left) {
  tell_ends()
  count = split($0, word, /[ \t]+/)
  if ($0 ~ /^harts /) tell("a second line 'harts N'; there is one")
  if ($0 ~ /^[ \t]|[ \t]$|\t|  /) tell("a slice is 'H C', with one space between and none before or behind")
  if (count > 2) tell("a word too many: a slice is 'H C'; a comment has a line of its own, with # at its beginning")
  if (count < 2) tell("a word is missing: a slice is 'H C', a hart and its instructions")
  if (!is_number(word[1])) tell_number("H, the hart,", word[1], 0, harts - 1)
  if (word[1] + 0 >= harts) tell("there is no hart " word[1] ": the harts are 0 to " harts - 1)
  if (!is_number(word[2]) || word[2] + 0 < 1 || word[2] + 0 > 4294967295)
    tell_number("C, the instructions,", word[2], 1, "4294967295")
  left = 4294967295 - used
  if (word[2] + 0 > left) tell("all C together are at most 4294967295, and the lines before leave " sprintf("%.0f", left))
}

$0 == "" || /^#/ { next }

!harts {
  if (NR == at) tell_harts()
  harts = substr($0, 7) + 0
  next
}

NR < at { split($0, slice, " "); used += slice[2]; next }

NR == at { tell_slice(); exit }

END { if (!told && !harts) print "there is no line 'harts N': each line is empty or a comment" }
