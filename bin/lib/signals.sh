# Ending tidily, for bin/build and bin/run-program: one temporary folder, one child at a time, and a signal ends the child
# and all that it started. Sourced; needs `name` (who speaks).
room=''   # the temporary folder
lent=''   # the temporary folder that rt works in, which `nobody` must be able to reach
child=''  # the process that is waited for
stage=''  # what a signal interrupts: proving, waiting or nothing to speak of

# A message on standard error. That it cannot be written is no reason to stop.
say() { echo "$name: $*" >&2 || :; }

# A message, and status 2: called wrongly, or this place does not let us work.
refuse() { say "$@"; exit 2; }

# Makes a temporary folder and puts its path into a variable. The name is chosen first, so that a signal finds it there.
new_folder() { # VARIABLE MODE
  local place=${TMPDIR:-/tmp}
  case $place in /*) ;; *) place=$PWD/$place ;; esac
  printf -v "$1" '%s/nevrodde-%d-%d' "$place" $$ "$RANDOM"
  if mkdir -m "$2" "${!1}" 2>/dev/null; then return 0; fi
  printf -v "$1" ''
  if [ -n "${TMPDIR:-}" ]; then refuse "TMPDIR is $TMPDIR, and no folder can be made there: set TMPDIR to a folder that can be written to"; fi
  refuse "no folder can be made in /tmp: set TMPDIR to a folder that can be written to"
}

# Makes the temporary folder, once.
make_room() { [ -n "$room" ] || new_folder room 700; }

# Removes the temporary folders.
clean() {
  if [ -n "$room" ]; then rm -rf "$room" || :; fi
  if [ -n "$lent" ]; then rm -rf "$lent" || :; fi
}

# Whether a process of a group still runs.
group_runs() { # GROUP
  cat /proc/[0-9]*/stat 2>/dev/null |
    awk -v group="$1" '{ sub(/^.*\) /, "") } $3 == group && $1 != "Z" { found = 1 } END { exit !found }'
}

# Ends the child: rt with all that it started, a process group of its own, or a single process.
end_child() {
  local tries=0
  if [ -z "$child" ]; then return 0; fi
  kill -TERM -- "-$child" "$child" 2>/dev/null || :
  while group_runs "$child"; do
    if [ "$tries" -eq 50 ]; then kill -KILL -- "-$child" 2>/dev/null || :; fi
    if [ "$tries" -ge 70 ]; then break; fi
    tries=$((tries + 1))
    sleep 0.1
  done
  wait "$child" 2>/dev/null || :
  child=''
}

# A signal: the child is ended, nothing half-written is left, and where something was going on one line says so.
# A script in a loop is to end with Ctrl-C too, so that signal is passed on to the shell itself.
stopped() { # SIGNAL NUMBER
  trap '' INT TERM HUP PIPE
  end_child
  case $stage in
    proving)
      count_kept
      say "stopped; $kept of ${#crates[@]} crates are proved and kept: run it again to go on"
      ;;
    waiting) say "stopped; the other build goes on" ;;
  esac
  clean
  trap - EXIT
  if [ "$1" = INT ]; then trap - INT; kill -INT $$; fi
  exit $((128 + $2))
}

# From here on a signal ends the child too. Without one bash's own way does: it stops, and `clean` follows.
watch_signals() {
  trap 'stopped INT 2' INT
  trap 'stopped TERM 15' TERM
  trap 'stopped HUP 1' HUP
  trap 'stopped PIPE 13' PIPE
}

# The child has ended.
child_ended() { child='' stage=''; trap - INT TERM HUP PIPE; }

# Runs a command as the child, with the standard input that is there.
attended() { # COMMAND..
  local status=0
  watch_signals
  "$@" <&0 &
  child=$!
  wait "$child" || status=$?
  child_ended
  return "$status"
}

trap clean EXIT
