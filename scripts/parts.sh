# For the scripts that run others as parts and add up their counts; `source` it.
passed=0 failed=0 table=()
log=$(mktemp)
trap 'rm -f "$log"' EXIT

# A number of seconds as minutes and seconds.
clock() { printf '%02d:%02d' $(($1 / 60)) $(($1 % 60)); }

# Sets `worked` to what processors did so far for all that has ended below this shell, in seconds. (In a shell of
# its own, as in a pipeline, `times` would tell nothing.)
look_at_processors() {
  times >"$log.times"
  worked=$(tail -n 1 "$log.times" | tr 'ms' '  ' | awk '{ printf "%d", $1 * 60 + $2 + $3 * 60 + $4 }')
  rm "$log.times"
}

# The folder of this shell's control group: of one of the older kind, whose name is told, or without a name of the newer one.
group_folder() {
  local root=/sys/fs/cgroup${1:+/$1} path
  path=$(sed -n "s/^[0-9]*:$1://p" /proc/self/cgroup)
  [ -d "$root$path" ] || path=
  echo "$root${path%/}"
}

# The memory that can still be had, in MB: by the machine, and by the control group's limit where it has one.
free_memory() {
  local free left group limit held
  free=$(awk '/^MemAvailable:/ { print int($2 / 1024) }' /proc/meminfo)
  while read -r group limit held; do
    limit=$(cat "$group/$limit" 2>/dev/null) || continue
    [ "$limit" != max ] || continue
    left=$(awk -v limit="$limit" -v held="$held" '$1 == held { printf "%.0f", (limit - $2) / 1048576 }' "$group/memory.stat")
    [ "${left:-$free}" -ge "$free" ] || free=$left
  done <<<"$(group_folder '') memory.max anon
$(group_folder memory) memory.limit_in_bytes rss"
  echo "$free"
}

# Puts the time so far before each line.
with_clock() {
  local line
  while IFS= read -r line || [ -n "$line" ]; do
    printf '[%02d:%02d] %s\n' $((SECONDS / 60)) $((SECONDS % 60)) "$line"
  done
}

# Runs a command whose last line is 'N passed, M failed', shows what it prints, and adds its counts. Where `copy_to` names a
# file, what it prints goes there too.
part() {
  local begun=$SECONDS status=0
  begin_part "$*"
  { "$@" || echo "$?" >"$log.status"; } | tee "$log" ${copy_to:+"$copy_to"} | with_clock
  if [ -e "$log.status" ]; then
    status=$(cat "$log.status")
    rm "$log.status"
  fi
  end_part "$*" "$begun" "$status"
}

# Waits for such a command, which was started beside other parts, with what it prints in a file: its name, its
# process and that file.
part_beside() {
  local begun=$SECONDS status=0
  begin_part "$1, begun beside the parts before"
  tail -n +1 -f --pid="$2" "$3" | tee "$log" | with_clock
  wait "$2" || status=$?
  end_part "$1" "$begun" "$status"
}

begin_part() {
  look_at_processors
  before=$worked
  echo "== $1"
}

# Adds the counts of a part: one that ended without its last line, or with a bad status and nothing failed, counts as
# one failed, and so does each edit that the prover can't read, which `rt ci` counts for nothing.
end_part() {
  local counts='^([0-9]+) passed, ([0-9]+) failed$' last unread
  unread=$(grep -c ': BAD EDIT: ' "$log") || true
  failed=$((failed + unread))
  last=$(tail -n 1 "$log")
  if [[ $last =~ $counts ]]; then
    passed=$((passed + BASH_REMATCH[1]))
    failed=$((failed + BASH_REMATCH[2]))
    [ "$3" -eq 0 ] || [ "${BASH_REMATCH[2]}" -ne 0 ] || failed=$((failed + 1))
  else
    last="ended with status $3 and without its counts"
    echo "check: $1 $last"
    failed=$((failed + 1))
  fi
  look_at_processors
  table+=("$(line_of "$1" $((SECONDS - $2)) $((worked - before)) "$last")")
  echo "== $1 took $(clock $((SECONDS - $2)))"
}

# A line of the table: a part, its time by the wall and of processors, in minutes and seconds, and its counts.
line_of() { printf '%-48s %9s %9s   %s' "$1" "$(clock "$2")" "$(clock "$3")" "$4"; }

# Prints the times of all parts, then the counts, and ends.
sum_up() {
  look_at_processors
  printf '\n%-48s %9s %9s   %s\n' part time processor counts
  printf '%s\n' "${table[@]}" "$(line_of all $SECONDS "$worked" '')"
  echo "$passed passed, $failed failed"
  [ "$failed" -eq 0 ] || exit 1
  exit 0
}
