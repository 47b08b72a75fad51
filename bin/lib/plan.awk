# The crates that the wanted ones stand on, and these themselves, each behind those that it needs: LEVEL NAME SECONDS
# DEPENDENCIES.. The crates of one level need nothing of each other.
# Run as: WANTED="NAME.." awk -f plan.awk weights.txt crates.txt
function visit(name, many, k, l, needs) {
  if (name in level) return
  level[name] = 0
  l = 0
  many = split(standsOn[name], needs, " ")
  for (k = 1; k <= many; k++) {
    if (!(needs[k] in standsOn)) continue
    visit(needs[k])
    if (level[needs[k]] + 1 > l) l = level[needs[k]] + 1
  }
  level[name] = l
  if (l > highest) highest = l
  order[++count] = name
}

{ sub(/#.*/, "") }
NF == 0 { next }
NR == FNR { seconds[$1] = $2; next }
{
  colon = index($0, ":")
  if (!colon) next
  name = $1 # "staticlib" may stand behind it
  sub(/:.*/, "", name)
  standsOn[name] = substr($0, colon + 1)
}

END {
  many = split(ENVIRON["WANTED"], wanted, " ")
  for (k = 1; k <= many; k++) if (wanted[k] in standsOn) visit(wanted[k])
  for (l = 0; l <= highest; l++) {
    for (k = 1; k <= count; k++) {
      name = order[k]
      if (level[name] == l) print l, name, (name in seconds ? seconds[name] : seconds["default"]), standsOn[name]
    }
  }
}
