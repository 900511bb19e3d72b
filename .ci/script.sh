# What the parts on the script `hpc` share, over common.sh: `hpc` with the built program in a folder without sources, and
# with one in its place that says what it is told.
. "$(dirname "${BASH_SOURCE[0]}")/common.sh"
. "$top/tools/advice/elf.sh"
. "$top/tools/advice/measure.sh"

mkdir -p "$folder"/{hpc,told}/{crates/hpc_cli/out,tools} "$folder"/{bin,files}
for place in hpc told; do
  cp "$top/hpc" "$top/crates.txt" "$folder/$place"
  cp -R "$top/tools/advice" "$top/tools/unproved" "$folder/$place/tools"
done
cp "$program" "$folder/hpc/crates/hpc_cli/out/hpc_cli"
printf '#!/usr/bin/env bash\necho "$LINE" >&2\nexit 3\n' >"$folder/told/crates/hpc_cli/out/hpc_cli"
chmod +x "$folder/told/crates/hpc_cli/out/hpc_cli"
cd "$folder/files" || exit 1
cp "$top"/examples/straight/{program,input,schedule} .
export LC_ALL=C
lf=$'\n'

# expect STATUS ADVICE WORD..: the status of `hpc`, and what it says on standard error behind the program's line.
expect() {
  local status=$1 said=$2 found wanted
  shift 2
  "$folder/hpc/hpc" "$@" >"$folder/out" 2>"$folder/err" </dev/null
  found=$?
  "$program" "$@" >"$folder/own.out" 2>"$folder/own.err" </dev/null
  [ $? = $found ] || complain "hpc $*: another status than the program's"
  [ $found = "$status" ] || complain "hpc $*: status $found, not $status"
  cmp -s "$folder/out" "$folder/own.out" || complain "hpc $*: another output than the program's"
  wanted=$(cat "$folder/own.err")${said:+${lf}hpc: $said}
  [ "$(cat "$folder/err")" = "${wanted#"$lf"}" ] || complain "hpc $*: said '$(cat "$folder/err")', not '${wanted#"$lf"}'"
}

# expect_of LINE ADVICE WORD..: what `hpc` says where the program refuses the words with that line.
expect_of() {
  local line=$1 said=$2
  shift 2
  LINE="hpc: $line" "$folder/told/hpc" "$@" >"$folder/out" 2>"$folder/err" </dev/null
  [ "$? $(cat "$folder/err")" = "3 hpc: $line${said:+${lf}hpc: $said}" ] || complain "hpc $*: said '$(cat "$folder/err")'"
}

# guest WORD..: the program `faulty` with these instructions.
guest() {
  { head -c 68 program; put_words $((4 * $#)) "${ROOM:-$((4 * $#))}"; head -c 84 program | tail -c 8; put_words "$@"; } >faulty
}

# The measurement `partial` of the program `recursive`, which has one function symbol: a whole path, and one of each cause,
# of one more sample each.
cp "$top/examples/recursion/program" recursive
{
  printf HPCRUNM1
  put_words "$(size_of recursive)" "$(word 24 recursive)" 7 1 6
  for end in 0 1 2 3 4 5; do put_words $((end + 1)) $end 1 $((0x10010 + 4 * end)); done
} >partial
