# What the parts of the gate share: each reads this file first. A part's one word is the built program; without it the
# program is the one of crates/hpc_cli.
top=$(cd "$(dirname "${BASH_SOURCE[0]}")/.." && pwd) || exit 1
program=$(realpath -m "${1:-$top/crates/hpc_cli/out/hpc_cli}")
folder=$(mktemp -d) || exit 1
trap 'rm -rf "$folder"' EXIT
failures=0

complain() { echo "checks: $*"; failures=$((failures + 1)); }

# A part that wants Python is passed over where there is none.
need_python() {
  command -v python3 >/dev/null && return
  echo "checks: no Python 3, so $(basename "$0") is not looked at"
  exit 0
}

# in_folder: goes to a new folder with the files of examples/straight, and a database that must be kept.
in_folder() {
  [ -x "$program" ] || { echo "checks: no program $program"; exit 1; }
  mkdir "$folder/run" && cd "$folder/run" || exit 1
  cp "$top"/examples/straight/{program,input,schedule} .
  printf 'kept' >database
}

# copied EXAMPLE: its files as EXAMPLE.program, EXAMPLE.input and EXAMPLE.schedule.
copied() {
  local part
  for part in program input schedule; do cp "$top/examples/$1/$part" "$1.$part"; done
}

# expect STATUS LINE WORD..: the program's status, what it says on standard error, and that nothing but a
# database that was asked for changed.
expect() {
  local status=$1 line=$2
  shift 2
  "$program" "$@" >out 2>err </dev/null
  local found=$?
  [ $found = "$status" ] || complain "$*: status $found, not $status"
  [ "$(cat err)" = "$line" ] || complain "$*: said '$(cat err)', not '$line'"
  [ "$status" = 0 ] || [ ! -s out ] || complain "$*: printed in spite of a refusal"
  [ "$status" = 0 ] || [ "$(cat database)" = kept ] || complain "$*: changed the database in spite of a refusal"
}

# compared WHAT COMMAND..: a check of checks/, whose lines are shown where it fails.
compared() {
  local what=$1
  shift
  "$@" >"$folder/said" 2>&1 || complain "$what: $(cat "$folder/said")"
}

# finish: ends the part with the status that its complaints say.
finish() {
  [ $failures = 0 ]
  exit
}
