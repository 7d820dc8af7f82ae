# For the scripts beside it, which source it: times of two commands by turns, a peak of memory, and the
# lines that they print. A limit is printed beside what was measured and never makes a script fail, since
# a busy machine can pass any limit; a command that ends with another status than it should does.

rounds=${rounds:-15}

fail() {
  echo "$(basename "$0"): $*" >&2
  exit 1
}

# The median of the numbers on standard input; of an even count the lower of the two in the middle.
median() {
  sort -n | awk '{ x[NR] = $1 } END { print x[int((NR + 1) / 2)] }'
}

# STATUS COMMAND..: the microseconds that a command takes, in `spent`. It has to end with that status.
spent=
micros() {
  local wanted=$1 begin end status=0
  shift
  begin=${EPOCHREALTIME/[.,]/}
  "$@" || status=$?
  end=${EPOCHREALTIME/[.,]/}
  ((status == wanted)) || fail "status $status in place of $wanted: $*"
  spent=$((end - begin))
}

# STATUS A STATUS B: the medians of two commands, in `first` and `second`. They run by turns, so that
# both meet the same load. Each is a function, or one word.
by_turns() {
  local round
  local -a one=() two=()
  for ((round = 0; round < rounds; round++)); do
    micros "$1" "$2"
    one+=("$spent")
    micros "$3" "$4"
    two+=("$spent")
  done
  first=$(printf '%s\n' "${one[@]}" | median)
  second=$(printf '%s\n' "${two[@]}" | median)
}

# NAME [LIMIT]: the ratio of the two medians.
ratio() {
  awk -v name="$1" -v a="$first" -v b="$second" -v limit="${2:-}" 'BEGIN {
    line = sprintf("%-34s %7.2f   %9.1f ms / %9.1f ms", name, a / b, a / 1000, b / 1000)
    print line (limit == "" ? "" : "   at most " limit (a > limit * b ? "  (above)" : ""))
  }'
}

# NAME COUNT [LIMIT]: a kernel of the program `kernels` against that of the program `plain`.
against_plain() {
  local name=$1 count=$2
  ours() { "$kernels" "$name" "$count"; }
  theirs() { "$plain" "$name" "$count"; }
  by_turns 0 ours 0 theirs
  ratio "$name" "${3:-}"
}

# STATUS COMMAND..: the peak of memory in KiB, in `peak`, by GNU time, or else by looking at the process
# again and again while it runs, which can miss a short peak. Standard input is the command's.
peak=
peak_of() {
  local wanted=$1 status=0 now pid
  shift
  if [ -x /usr/bin/time ]; then
    /usr/bin/time -q -f %M -o "$scratch/peak" "$@" >/dev/null 2>"$scratch/said" || status=$?
    peak=$(tail -n 1 "$scratch/peak")
  else
    peak=0
    "$@" <&0 >/dev/null 2>"$scratch/said" &
    pid=$!
    while now=$(awk '/^VmHWM/ { print $2 }' "/proc/$pid/status" 2>/dev/null) && [ -n "$now" ]; do
      peak=$now
    done
    wait "$pid" || status=$?
  fi
  ((status == wanted)) || fail "status $status in place of $wanted: $*"
}

# NAME LIMIT: the peak in MiB, beside a limit in MiB.
memory() {
  awk -v name="$1" -v kib="$peak" -v limit="$2" 'BEGIN {
    printf "%-34s %7.2f MiB   at most %s%s\n", name, kib / 1024, limit, (kib > 1024 * limit ? "  (above)" : "")
  }'
}

# What the numbers were taken on, so that they can be judged.
machine() {
  echo "$(nproc) processors, load $(cut -d' ' -f1-3 /proc/loadavg), medians of $rounds rounds"
}

# Builds the program by the script at the top, and takes its path from there, in `program`.
find_program() {
  local top=$1 place
  place=$(sed -n 's/^program=\$here\///p' "$top/authfetch" 2>/dev/null)
  [ -n "$place" ] || fail "no script authfetch at the top that says where the program lies"
  program=$top/$place
  echo 'authfetch 1' | "$top/authfetch" check >/dev/null || fail "the program could not be built or run"
  [ -x "$program" ] || fail "no program at $program"
}
