# How far a build is, for bin/lib/build.sh: what rt prints as it goes is kept line by line, and each crate that has ended
# is told on standard error, with its place and with the time that is left. Sourced; needs `top` (the tree), `say` and `room`.
# What runs beside rt gives its result in a variable, named in its comment: bash 5.2 loses a signal that comes while it
# reads a command in $( ), so there is none here.
declare -a crates=()                                # the crates to be proved, each behind those that it stands on
declare -A seconds=() needs=()                      # of each: how long it may take, what it stands on
declare -A ended=()                                 # of each that has ended: proved, unchanged, failed or ran (its run is wrong)
crate_log=''                                        # the file that keeps what rt says of the crate at hand
unchanged=0 counted='' measured=0 expected=0 reckoned=0 words='' kept=0

# Reads the plan for the wanted programs.
plan() { # CRATE..
  local l name s rest
  while read -r l name s rest; do
    crates+=("$name") seconds[$name]=$s needs[$name]=$rest
  done < <(WANTED="$*" LC_ALL=C awk -f "$top/bin/lib/plan.awk" "$top/bin/lib/weights.txt" "$top/crates.txt")
}

# Whether a crate stands on one that is not proved; then that is noted.
stands_on_failed() { # CRATE
  local d
  for d in ${needs[$1]}; do
    if [ "${ended[$d]-}" = failed ]; then
      ended[$1]=failed
      printf 'rt: %s NOT PROVED: its dependency %s is not proved\n' "$1" "$d" >>"$room/log"
      return 0
    fi
  done
  return 1
}

# Whether a crate that has not ended will be proved in this run: it has no stamp of rt's, or stands on one that is.
comes() { # CRATE
  local d
  if [ ! -f "$top/crates/$1/out/rlib/stamp" ] && [ ! -f "$top/crates/$1/out/$1.stamp" ]; then return 0; fi
  for d in ${needs[$1]}; do
    if [ -n "${anew[$d]-}" ]; then return 0; fi
  done
  return 1
}

# Seconds for the crates that are left, or for all of them, in `reckoned`: rt proves one after the other.
reckon() { # left | all
  local c sum=0
  local -A anew=()
  for c in "${crates[@]}"; do
    if [ "$1" = left ]; then
      if [ "${ended[$c]-}" = proved ]; then anew[$c]=1; fi
      if [ -n "${ended[$c]-}" ] || ! comes "$c"; then continue; fi
    fi
    anew[$c]=1
    sum=$((sum + ${seconds[$c]}))
  done
  reckoned=$sum
}

# The time that is left, in `words`, at the pace of the crates so far: the ten seconds on both sides keep the first small
# crates from deciding it.
time_left() {
  local left
  reckon left
  left=$((reckoned * (measured + 10) / (expected + 10)))
  if [ "$left" -lt 10 ]; then words="a few seconds left"
  elif [ "$left" -lt 90 ]; then words="about $(((left + 9) / 10 * 10)) s left"
  else words="about $(((left + 30) / 60)) minutes left"; fi
}

# How long all takes from nothing, in `words`.
time_of_all() {
  local minutes cores
  reckon all
  minutes=$((reckoned / 60))
  cores=$(nproc 2>/dev/null || echo 1)
  case $cores in 1) cores="one quiet core" ;; 2) cores="two quiet cores" ;; *) cores="four quiet cores" ;; esac
  if [ "$minutes" -eq 0 ]; then words="less than a minute on $cores"
  else words="about $minutes to $((minutes + 1)) minutes on $cores"; fi
}

# How many of the crates were proved before and have not changed, once, when rt has passed them and proves others.
tell_unchanged() {
  if [ -n "$counted" ] || [ "$unchanged" -eq 0 ]; then return 0; fi
  counted=yes
  if [ "$unchanged" -eq "${#crates[@]}" ]; then say "$unchanged of $unchanged crates are proved already"; return 0; fi
  time_left
  say "$unchanged of ${#crates[@]} crates are proved already; $words"
}

# A crate has ended. One that was proved or that failed is told, with its place and the time that is left, and what rt said
# of it is kept for a report.
tell() { # CRATE HOW SECONDS | WHY
  local line
  ended[$1]=$2
  cat "$crate_log" >>"$room/log"
  case $2 in
    unchanged) unchanged=$((unchanged + 1)); return 0 ;;
    failed) printf 'rt: %s NOT PROVED %s\n' "$1" "$3" >>"$room/log" ;;
    ran) printf 'rt: %s\nrt: %s proved, and its run FAILED\n' "$3" "$1" >>"$room/log" ;;
    proved) printf 'rt: %s proved (%s s)\n' "$1" "$3" >>"$room/log" ;;
  esac
  tell_unchanged
  if [ "$2" = failed ]; then
    printf -v line '%2d of %d  %-12s NOT PROVED' "${#ended[@]}" "${#crates[@]}" "$1"
  elif [ "$2" = ran ]; then
    printf -v line '%2d of %d  %-12s proved, but its run is wrong' "${#ended[@]}" "${#crates[@]}" "$1"
  else
    measured=$((measured + $3)) expected=$((expected + ${seconds[$1]}))
    time_left
    if [ "${#ended[@]}" -eq "${#crates[@]}" ]; then words=''; fi
    printf -v line '%2d of %d  %-12s %3d s   %s' "${#ended[@]}" "${#crates[@]}" "$1" "$3" "$words"
  fi
  say "$line"
}

# Hears what comes on descriptor 4 to its end, and keeps it. After two seconds of silence something is being proved.
follow() {
  local line part=''
  while :; do
    if IFS= read -r -t 2 -u 4 line; then
      printf '%s\n' "$part$line" >>"$crate_log"
      part=''
    elif [ $? -gt 128 ]; then
      part+=$line
      tell_unchanged
    else
      break
    fi
  done
  if [ -n "$part$line" ]; then printf '%s\n' "$part$line" >>"$crate_log"; fi
}

# How many crates are proved and stay so, in `kept`.
count_kept() {
  local c
  kept=0
  for c in "${crates[@]}"; do
    case ${ended[$c]-} in proved | unchanged | ran) kept=$((kept + 1)) ;; esac
  done
}
