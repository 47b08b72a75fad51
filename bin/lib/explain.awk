# Each answer beside its call, with the answer in words: LINE  CALL  ANSWER: WORDS.
# Run as: SHOWN=FILE awk -f explain.awk answers.txt WHAT-THE-PROGRAM-WROTE, where FILE has the lines of the script as
# they are to be shown, one for each answer. The program writes a heading, then LINE, CALL, ANSWER and VALUE, by tabs;
# the value 0 of a read or count that was turned down is none, and not shown.

# A call, as long as the column is wide at most.
function call(text) { return length(text) > widest ? substr(text, 1, widest - 3) "..." : text }

BEGIN {
  FS = "\t"
  widest = 40
  shown = ENVIRON["SHOWN"]
  column = 8
  while ((getline text < shown) > 0) {
    count++
    if (length(text) > column) column = length(text)
  }
  close(shown)
  if (column > widest) column = widest
  digits = length(count "") > 4 ? length(count "") : 4
  row = "%" digits "s  %-" column "s  %2s: %s\n"
}

NR == FNR {
  blank = index($0, " ")
  if ($0 !~ /^#/ && blank) words[substr($0, 1, blank - 1)] = substr($0, blank + 1)
  next
}
FNR == 1 { printf "%" digits "s  %-" column "s  answer\n", "line", "call"; next }
{
  if ((getline text < shown) <= 0) text = ""
  said = ($3 in words) ? words[$3] : "an answer that bin/lib/answers.txt has no words for"
  if ($4 != "-" && ($3 == "0" || $4 != "0")) said = said ", value " $4
  printf row, $1, call(text), $3, said
}
