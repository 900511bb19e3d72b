# awk -f causes.awk STRUCTURE WORDS: the partial call paths of a measurement by their causes. STRUCTURE is the listing
# of the program's procedures (`hpc struct`), and WORDS are the measurement's words behind its head, one a line.
# The first line is `all SAMPLES PARTIAL`; then a line `CAUSE SAMPLES PROCEDURE (SAMPLES), ..` for each cause, the
# most frequent first, with the procedures of the outermost frames that were found.

function number(hex,  i, n) {
  for (i = 3; i <= length(hex); i++) n = 16 * n + index("0123456789abcdef", substr(hex, i, 1)) - 1
  return n
}

# the procedure that holds an address
function procedure(pc,  i) {
  if (!(pc in known)) {
    known[pc] = sprintf("0x%08x", pc)
    for (i = 1; i <= ranges; i++)
      if (low[i] <= pc && pc < high[i]) { known[pc] = name[i]; break }
  }
  return known[pc]
}

# the most frequent of the rest, or nothing
function take(cause,  key, part, best) {
  for (key in at) {
    split(key, part, SUBSEP)
    if (part[1] == cause && (best == "" || at[key] > at[best] || at[key] == at[best] && key < best)) best = key
  }
  return best
}

FNR == NR {
  if ($1 != "proc" && $1 != "symbol") next
  count = split($NF, range, ",")
  for (i = 1; i <= count; i++) {
    split(range[i], ends, /\.\./)
    low[++ranges] = number(ends[1])
    high[ranges] = number(ends[2])
    name[ranges] = substr($0, length($1) + 2, length($0) - length($1) - length($NF) - 2)
  }
  next
}

!paths { paths = $1; part = 0; next }
part == 0 { samples = $1; all += samples; part = 1; next }
part == 1 { end = $1; part = 2; next }
part == 2 { left = $1; part = 3; next }
--left == 0 {
  if (end) {
    partial += samples
    by[end] += samples
    at[end, procedure($1)] += samples
  }
  part = 0
  paths--
}

END {
  print "all", all + 0, partial + 0
  for (;;) {
    most = 0
    for (cause = 1; cause <= 5; cause++) if (by[cause] > by[most] + 0) most = cause
    if (!most) break
    text = ""
    for (shown = 0; (key = take(most)) != ""; shown++) {
      split(key, part_of, SUBSEP)
      if (shown < 3) text = text (shown ? ", " : "") part_of[2] " (" at[key] ")"
      delete at[key]
    }
    if (shown > 3) text = text " and " shown - 3 " more"
    print most, by[most], text
    delete by[most]
  }
}
