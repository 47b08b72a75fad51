# What to look at after a failed build, from all that rt printed: the lowest crate that failed by itself, the functions in
# it that are not proved, its first errors, and the one log to read. At most some 20 lines.
# Run as: NAME=.. TOP=.. WIDTH=.. STATUS=.. awk -f failure.awk WHAT-RT-PRINTED
# What the prover says of a crate stands before a line `rt: CRATE ..` (bin/lib/progress.sh): a section is what stands
# between two such.

# A line that names its file from the top of the tree (the prover names it from the crate's folder), no longer than the
# terminal is wide.
function short(line, at, front) {
  if (culprit && line ~ /^  (note: )?(\.\/)?(src|specs|proofs)\//) {
    front = line ~ /^  note: / ? "  note: " : "  "
    line = substr(line, length(front) + 1)
    sub(/^\.\//, "", line)
    line = front "crates/" culprit "/" line
  }
  while (at = index(line, top)) line = substr(line, 1, at - 1) substr(line, at + length(top))
  if (length(line) > width) {
    line = substr(line, 1, width - 3)
    sub(/[\300-\377][\200-\277]*$/, "", line)
    line = line "..."
  }
  return line
}

# A sentence of the program that was called; its end, such as a path, is never cut.
function say(sentence) { print name ": " sentence }

# A line of what rt or the prover said.
function show(line) { print short("  " line) }

# Keeps the lines of the section that has ended.
function keep(k) {
  for (k = 1; k <= lines; k++) own[k] = section[k]
  kept = lines
}

# The functions that are not proved, first of all those that call no other such.
function functions(k, callers, told) {
  for (k = 1; k <= kept; k++) {
    if (own[k] !~ /^(fn|enum|struct|union|const|static|impl|trait|type) .*: (not proved|no proof)/) continue
    if (own[k] ~ /[:;] it calls `/) { callers++; continue }
    if (++told <= 6) show(own[k])
  }
  if (told > 6) show("and " told - 6 " more")
  if (told && callers) show(callers (callers == 1 ? " more is" : " more are") " not proved since " (callers == 1 ? "it calls" : "they call") " such a one")
  return told
}

# Whether a line is an error, or says of a need that nothing proves it; `any`: also one that only follows from another.
function isError(line, any) {
  if (line ~ /^note: .*: it is not proved that /) return 1
  return line ~ /: error(\[[a-z-]*\])?: / && (any || line !~ /was not admitted/)
}

# The first errors, and behind the very first what the prover says of it.
function errors(any, k, told, more) {
  for (k = 1; k <= kept && told < 5; k++) {
    if (isError(own[k], any)) { show(own[k]); told++; more = (told == 1) ? 3 : 0 }
    else if (own[k] ~ /^  / && more > 0) { show(own[k]); more-- }
    else more = 0
  }
  return told
}

# The last lines of a section that tell something, for want of anything better.
function last(many, k) {
  for (k = kept - many + 1; k <= kept; k++) if (k >= 1 && own[k] !~ /^[ \t]*$/) show(own[k])
}

# A crate that is not proved, or that the toolchain failed on.
function reportCrate(how) {
  how = verdict
  sub(/^rt: [^ ]* NOT PROVED:? ?/, "", how)
  if (how !~ /^\(exit/) { say("crate " culprit " is not proved: " how); return }
  if (how !~ /^\(exit [13],/) { say("the toolchain failed on crate " culprit " " how ":"); last(6) }
  else {
    say("crate " culprit " is not proved:")
    functions()
    if (!errors(0)) if (!errors(1)) last(6)
  }
  say("the whole account is in " top "target/log/" culprit ".out")
}

# A proved program that did not run, or that wrote something else than its file says.
function reportRun() {
  say("the program of crate " ran " is proved, but what it did when it was tried is wrong:")
  last(4)
  if (reason ~ /ended with status/) say("what it said is in " top "target/log/" ran ".out")
  else if (reason ~ /wrote is not/) say("what it wrote is in " top "target/log/" ran ".stdout, what it should in " top "crates/" ran "/stdout")
}

BEGIN {
  name = ENVIRON["NAME"]
  top = ENVIRON["TOP"] "/"
  width = ENVIRON["WIDTH"]
}

/^rt: [^ ]+ NOT PROVED: its dependency/ { above++; lines = 0; next }
/^rt: [^ ]+ NOT PROVED/ {
  if (!culprit) { culprit = $2; verdict = $0; keep() }
  else others = others " " $2
  lines = 0
  next
}
/^rt: [^ ]+ proved, and its run FAILED/ {
  if (!culprit && !ran) { ran = $2; reason = why; keep() }
  lines = 0
  next
}
/^rt: [^ ]+ proved / { lines = 0; next }
/^rt: running out\// { lines = 0; next }
/^rt: / { why = $0; sub(/^rt: /, ""); sub(/^print_page: /, "") }
{ section[++lines] = $0 }

END {
  if (culprit) reportCrate()
  else if (ran) reportRun()
  else { say("rt failed, with status " ENVIRON["STATUS"] ":"); keep(); last(6) }
  if (others) say("not proved by themselves either:" others)
  if (above) say("not tried, since they stand on what is not proved: " above (above == 1 ? " crate" : " crates"))
}
