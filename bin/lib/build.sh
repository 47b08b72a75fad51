# Proving and building, for bin/build, bin/run-program and bin/library. Sourced, with bin/lib/signals.sh before it; needs
# `top` (the tree) and `name` (who speaks). A program counts as built where target/built/PROGRAM has the hash of these very
# sources, of the toolchain and of target/bin/PROGRAM; that stamp is written only once it is proved, and was run, by `rt run`
# here or by a `rt ci` that passed (.ci/take). What rt itself keeps lies in each crate's out/.
. "$top/bin/lib/progress.sh"
now=''  # the hash of the sources and the toolchain
kit=''  # the toolchain's line about itself
unbuilt="the programs are not built here" # what is said where nothing can be written
none_left="no program is run"             # what is said where the proof fails

# What the programs are made of: every source, the list of crates, and the toolchain.
sources() {
  (cd "$top" && find crates crates.txt -type f ! -path '*/must-fail/*' ! -path 'crates/*/out/*' -print0 |
    LC_ALL=C sort -z | xargs -0 sha256sum) || return 1
  echo "$kit"
}

# What a program's stamp must say.
stamp_of() { echo "$now$(sha256sum <"$top/target/bin/$1")"; }

# Whether these programs are built from these very sources.
built() { # CRATE..
  local p
  now=$(sources | sha256sum) || refuse "the sources in $top cannot be read"
  for p in "$@"; do
    [ -x "$top/target/bin/$p" ] && [ -f "$top/target/built/$p" ] || return 1
    [ "$(cat "$top/target/built/$p")" = "$(stamp_of "$p")" ] || return 1
  done
}

# The programs that are built together with one: what a script can be run through is built at once.
together() { # CRATE
  case $1 in
    drill | fault | print_page | print_hex | show_hex) echo drill fault print_page print_hex show_hex ;;
    *) echo "$1" ;;
  esac
}

# Programs as a user calls them, in words: the crate print_page is behind bin/page, print_hex and show_hex behind bin/hex.
as_called() { # CRATE..
  echo "$*" | sed -e 's/print_page/page/' -e 's/print_hex show_hex/hex/' -e 's/ /, /g' -e 's/, \([^ ]*\)$/ and \1/'
}

# Waits until no other build works in this tree, and keeps others out until descriptor 9 is closed.
lock() {
  if ! mkdir -p "$top/target/built" 2>/dev/null || ! { : >>"$top/target/built/.lock"; } 2>/dev/null; then
    say "$unbuilt, and nothing can be written to $top/target"
    refuse "build where you can write: cp -r $top to a folder of your own, and call bin/$name there"
  fi
  exec 9>>"$top/target/built/.lock"
  local status=0
  flock -n -E 99 9 || status=$?
  if [ "$status" -ne 99 ]; then return 0; fi
  say "another build is at work in this tree; this one waits until it has ended"
  stage=waiting
  attended flock 9 || :
}

# How many characters a line of the terminal has.
width() {
  local size=''
  if [ -t 2 ]; then size=$(stty size <&2 2>/dev/null) || size=''; fi
  size=${size#* }
  if [ "${size:-0}" -ge 40 ]; then echo "$size"; else echo 160; fi
}

# rt in a crate's folder, in a process group of its own and with a folder for its temporary files that goes away.
rt_alone() { # CRATE WORD..
  cd "$top/crates/$1" && TMPDIR=$lent exec setsid rt "${@:2}"
}

# Whether a crate is a program.
is_program() { [ -f "$top/crates/$1/src/main.rt" ]; } # CRATE

# Starts rt on a crate: a library is proved and built, a program also run on its file stdin, with the words of its file
# args. What rt says goes to the pipe, what the program writes to target/log/CRATE.stdout.
start_rt() { # CRATE
  local given=/dev/null words=()
  if ! is_program "$1"; then rt_alone "$1" lib >"$room/pipe" 2>&1 </dev/null & return; fi
  if [ -f "$top/crates/$1/stdin" ]; then given=$top/crates/$1/stdin; fi
  if [ -f "$top/crates/$1/args" ]; then mapfile -t words <"$top/crates/$1/args"; fi
  rt_alone "$1" run -- "${words[@]}" >"$top/target/log/$1.stdout" 2>"$room/pipe" <"$given" &
}

# What is wrong with a program's run, in words; nothing where it wrote and said what it should.
wrong_run() { # CRATE STATUS
  local wanted=/dev/null ends=0
  if [ -f "$top/crates/$1/stdout" ]; then wanted=$top/crates/$1/stdout; fi
  if [ -f "$top/crates/$1/status" ]; then ends=$(cat "$top/crates/$1/status"); fi
  if [ "$2" -ne "$ends" ]; then echo "the program ended with status $2"
  elif ! cmp -s "$top/target/log/$1.stdout" "$wanted"; then echo "what the program wrote is not what its file stdout has"; fi
}

# Has rt prove, and build, one crate, and says how it ended: proved, unchanged, failed, or ran where only its run is wrong.
prove_one() { # CRATE
  local status=0 began=$SECONDS why
  crate_log=$top/target/log/$1.out
  : >"$crate_log"
  start_rt "$1"
  child=$!
  exec 4<"$room/pipe"
  follow
  exec 4<&-
  wait "$child" || status=$?
  child=''
  if is_program "$1" && grep -q '^rt: running out/' "$crate_log"; then
    why=$(wrong_run "$1" "$status")
    if [ -n "$why" ]; then tell "$1" ran "$why"; return 1; fi
    status=0
  fi
  if [ "$status" -ne 0 ]; then tell "$1" failed "(exit $status, $((SECONDS - began)) s)"; return "$status"; fi
  if grep -q '^logic=proved' "$crate_log"; then tell "$1" proved $((SECONDS - began)); else tell "$1" unchanged 0; fi
}

# Has rt prove and build crates and all that they stand on, one after the other, and tells of it. A crate that stands on
# one that failed is not tried. The status is that of the first that failed.
prove() { # CRATE..
  local status=0 began=$SECONDS c s
  plan "$@"
  new_folder lent 711
  mkdir -p "$top/target/log" "$top/target/bin"
  time_of_all
  say "proving and building $(as_called "$@"), ${#crates[@]} crates: from nothing it takes $words"
  say "it may be stopped with Ctrl-C: what is proved is kept"
  mkfifo "$room/pipe"
  watch_signals
  stage=proving
  for c in "${crates[@]}"; do
    if stands_on_failed "$c"; then continue; fi
    prove_one "$c" || { s=$?; [ "$status" -ne 0 ] || status=$s; }
  done
  tell_unchanged
  child_ended
  rm -f "$room/pipe"
  if [ "$status" -eq 0 ] && [ "$unchanged" -lt "${#crates[@]}" ]; then say "proved and built, in $((SECONDS - began)) s"; fi
  return "$status"
}

# Puts a program where it is run from, whole or not at all, and stamps it.
place_program() { # CRATE
  local from=$top/crates/$1/out/$1 to=$top/target/bin/$1
  if cp "$from" "$to.new" 2>/dev/null && mv -f "$to.new" "$to" 2>/dev/null && stamp_of "$1" >"$top/target/built/$1"; then return; fi
  rm -f "$to.new" "$top/target/built/$1" 2>/dev/null || :
  refuse "nothing can be written to $top/target"
}

# Says why a build failed, and ends: 2 where the toolchain failed, else 1.
failed() { # STATUS
  NAME=$name TOP=$top WIDTH=$(width) STATUS=$1 LC_ALL=C awk -f "$top/bin/lib/failure.awk" "$room/log" >&2 || :
  say "$none_left"
  if [ "$1" -eq 1 ] || [ "$1" -eq 3 ]; then exit 1; fi
  exit 2
}

# Finds the toolchain.
find_kit() {
  command -v rt >/dev/null || refuse "the Rattle toolchain's command rt is not on the PATH"
  kit=$(rt version 2>&1) || refuse "the toolchain does not work: ${kit:-rt version says nothing}"
}

# Ends where the sources were changed while they were proved.
unchanged_since() {
  local before=$now
  now=$(sources | sha256sum) || refuse "the sources in $top cannot be read"
  if [ "$now" != "$before" ]; then say "the sources were changed while they were proved: run it again"; exit 1; fi
}

# Proves and builds a program where its sources have changed since that was last done, and with it those that belong to it.
build() { # CRATE..
  local p status=0 wanted
  find_kit
  if built "$@"; then return 0; fi
  make_room
  lock
  if built "$@"; then exec 9>&-; return 0; fi
  read -r -a wanted <<<"$(together "$1")"
  for p in "${wanted[@]}"; do rm -f "$top/target/built/$p"; done
  : >"$room/log"
  prove "${wanted[@]}" || status=$?
  if [ "$status" -ne 0 ]; then failed "$status"; fi
  unchanged_since
  for p in "${wanted[@]}"; do place_program "$p"; done
  exec 9>&-
}
