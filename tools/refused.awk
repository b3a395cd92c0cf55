# Says why a plan in sentences is refused, and shows the line in question. Files: python/cstn/places.txt and the plan. In the environment
# stand REFUSAL, the answer of `plan` without its LF, and PLAN, the name of the plan as it is shown.

BEGIN {
  count = split(ENVIRON["REFUSAL"], part, " ")
  number = part[2] == "line" ? part[3] + 0 : 0
  kind = number ? part[4] : part[2]
  word = number ? part[5] : part[3]
}

# The table of places.
FNR == NR {
  if ($0 ~ /^#/) next
  split($0, column, / \| ?/)
  says[column[1]] = column[2]
  many = split(column[3], lead, " ")
  for (at = 1; at <= many; at++) {
    split(lead[at], pair, ":")
    next_place[column[1], pair[1]] = pair[2]
  }
  next
}

# The plan, as far as it is needed. Of lines that are not in question, steps and tasks alone are of use.
FNR == 1 { sub(/^\357\273\277/, "") }
FNR == number || /^[ \t\r]*(step|task)[ \t]/ { cut(); keep() }
kind == "deadline" || kind == "long" || FNR == number && kind != "name" { exit }

END {
  told = number ? "line " number ": " why() : why()
  print ENVIRON["PLAN"] ", " told
  if (number) show()
}

# Cuts the line into words, with the place of each; `unclosed` is whether a quote has no end.
function cut(    rest, at, size) {
  words = unclosed = 0
  rest = $0
  at = 1
  while (match(rest, /[^ \t\r]/)) {
    at += RSTART - 1
    rest = substr(rest, RSTART)
    if (rest ~ /^#/) return
    if (rest ~ /^"/) {
      size = index(substr(rest, 2), "\"") + 1
      if (size == 1) { unclosed = 1; size = length(rest) }
    } else {
      match(rest, /^[^ \t\r]+/)
      size = RLENGTH
    }
    text[++words] = substr(rest, 1, size)
    place[words] = at
    at += size
    rest = substr(rest, size + 1)
  }
  text[words + 1] = ""
}

# The name that a word spells, in the printed form.
function printed(it) {
  if (it !~ /^"/) return it
  it = substr(it, 2, length(it) - 2)
  gsub(/ /, "%20", it)
  gsub(/%22/, "\"", it)
  return it
}

# Keeps the line in question, and in which line each step and task was first said.
function keep(    at, name) {
  if (text[1] == "step" || text[1] == "task") {
    name = printed(text[2])
    if (!(name in said)) said[name] = FNR
    if (text[1] == "task" && !((name ".end") in said)) said[name ".end"] = FNR
    if (text[1] == "task") tasks[name]
  }
  if (FNR != number) return
  line = $0
  line_words = words
  line_unclosed = unclosed
  for (at = 1; at <= words + 1; at++) {
    line_text[at] = text[at]
    line_place[at] = place[at]
  }
}

# Why the plan is refused, in words. `mark` is the word in question, where there is one.
function why() {
  mark = 0
  if (kind == "word") return why_word()
  if (kind == "range") return why_range()
  if (kind == "twice") return why_twice()
  if (kind == "name") return why_name()
  if (kind == "letter") return why_letter()
  if (kind == "deadline") return "no line says the deadline: write deadline and a time, or say --deadline N"
  if (kind == "long") return "a plan has at most 8388608 bytes"
  return why_network()
}

function why_word(    at, state, it, on) {
  if (word == 0) {
    if (length(line) > 4096) return "a line has at most 4096 bytes"
    if (line_unclosed) { mark = line_words; return "this quote has no end" }
    return "the line is not UTF-8"
  }
  state = "line"
  for (at = 1; at < word; at++) {
    it = line_text[at]
    on = next_place[state, it]
    if (on == "" && it ~ /^[A-Za-z]$/) on = next_place[state, "LETTER"]
    if (on == "" && it ~ /^-/) on = next_place[state, "NEGATIVE"]
    state = on == "" ? next_place[state, "*"] : on
  }
  mark = word
  return "here may stand " says[state]
}

# The ticks of a span. A time of the clock counts from midnight.
function ticks(it,    sign, part) {
  sign = sub(/^-/, "", it) ? -1 : 1
  return sign * (split(it, part, ":") == 2 ? 60 * part[1] + part[2] : it)
}

function is_large(it) {
  return ticks(it) > 1000000000 || ticks(it) < -1000000000
}

function why_range(    at, ends, count, on) {
  if (line_text[1] == "start" && line_words == 2) { mark = 2; return "a clock is from 0:00 to 23:59" }
  for (at = 2; at <= line_words; at++) {
    if (line_text[at] !~ /^-?[0-9][0-9:]*(\.\.(-?[0-9][0-9:]*)?)?$/) continue
    count = split(line_text[at], ends, /\.\./)
    mark = at
    if (is_large(ends[1]) || count == 2 && is_large(ends[2])) return "a number is above 1000000000 either way"
    if (count == 2 && ends[2] != "" && ticks(ends[1]) > ticks(ends[2])) return "the range ends before it begins"
    on = line_text[1] ~ /^(step|task)$/ && line_text[at - 1] == "after"
    if (on && (ticks(ends[1]) < 1 || ticks(ends[1]) > 1000)) return "a reaction is from 1 to 1000"
  }
  mark = 0
  for (at = 2; at <= line_words && !mark; at++) if (line_text[at - 1] == "at") mark = at
  return mark ? "by the clock the range ends before it begins" : "a number is above 1000000000 with the reaction of its result"
}

# The last word that is this one, or spells this name.
function last_of(it,    at) {
  for (at = line_words; at; at--) if (line_text[at] == it || printed(line_text[at]) == it) return at
  return 0
}

function is_named_twice() {
  return (line_text[1] == "step" || line_text[1] == "task") && (word in said) && said[word] < number && \
    (printed(line_text[2]) == word || line_text[1] == "task" && printed(line_text[2]) ".end" == word)
}

function why_twice() {
  if ((word == "deadline" || word == "start") && line_text[1] == word) { mark = 1; return "the " word " was said above" }
  if (is_named_twice()) { mark = 2; return "line " said[word] " has a step " word " already" }
  mark = last_of(word)
  if (line_text[mark - 1] == "as") return "this letter has another word already"
  if (line_text[mark + 1] == "as") return "this word stands for another letter already"
  return "the letter of " word " stands twice in the label"
}

function why_name(    at) {
  if (line_text[1] == "task" && printed(line_text[2]) == word) {
    mark = 2
    return word == "Z" ? "the start, Z, is no task" : "the name of a task has at most 60 bytes"
  }
  for (at = 2; at <= line_words; at++)
    if (line_text[at - 1] == "of" && printed(line_text[at]) == word && (word == "Z" || word in said) && !(word in tasks)) {
      mark = at
      return word " is a step, and no task"
    }
  for (at = 1; at <= line_words && !mark; at++) if (printed(line_text[at]) == word) mark = at
  return "no line says step " word ", or task " word
}

function why_letter(    at) {
  for (at = 2; at <= line_words && !mark; at++)
    if (line_text[at] == word && line_text[at - 1] ~ /^(if|and|not|of)$/) mark = at
  if (length(word) == 1) return "no step observes " word
  return word " stands for no letter: no step observes " word " as a letter"
}

# What is wrong with the network.
function why_network() {
  if (kind == "N1") return "there are more than 1024 steps, with Z and the ends of tasks"
  if (kind == "N3") return "there are more than 16384 constraints"
  if (kind == "N4") return "the deadline, " word ", is above 1000000"
  if (kind == "N6") return "a label names " word ", which no step observes"
  if (kind == "N7") return at_line(part[4]) " and " at_line(part[5]) " both observe " word
  if (kind == "L1") return "the start, Z, has a label"
  if (kind == "L3") return "the label of " at_line(word) " names " part[4] ", which no step observes"
  if (kind == "L4") return at_line(word) " would have to know what it observes itself"
  if (kind == "L5") return at_line(word) " is never executed: its label and those of the steps that observe its letters exclude each other"
  return "there are more than 16384 constraints, with those that labels add"
}

function at_line(name) {
  return name (name in said ? " (line " said[name] ")" : "")
}

# A text with ? for each sign that a screen obeys.
function harmless(it) {
  gsub(/[\001-\010\013-\037\177]|\302[\200-\237]|\330\234|\342\200[\216\217\250-\256]|\342\201[\246-\251]/, "?", it)
  gsub(/\t/, " ", it)
  return it
}

# A text in which no byte stands for itself alone; of one that is not UTF-8 all that is not ASCII becomes ?.
function in_signs(it,    left) {
  left = it
  gsub(/[\302-\337][\200-\277]|[\340-\357][\200-\277][\200-\277]|[\360-\364][\200-\277][\200-\277][\200-\277]/, "", left)
  if (left ~ /[\200-\377]/) gsub(/[\200-\377]/, "?", it)
  return it
}

# How many signs of a text a screen shows beside each other.
function wide(it) {
  it = harmless(it)
  gsub(/[\200-\277]/, "", it)
  return length(it)
}

# The line, or what of it stands near the word in question, and a mark under that.
function show(    before, behind, size) {
  if (!mark && length(line) > 4096) { line = substr(line, 1, 4096); sub(/[\300-\377][\200-\277]*$/, "", line) }
  line = in_signs(line)
  before = substr(line, 1, line_place[mark] - 1)
  behind = substr(line, line_place[mark])
  if (!mark || mark > line_words) { before = line; behind = "" }
  if (mark > line_words) sub(/[ \t\r]*$/, "", before)
  before = harmless(before)
  behind = harmless(behind)
  if (mark && length(before) > 120) { before = substr(before, length(before) - 80); sub(/^[\200-\277]+/, "", before); before = ".. " before }
  if (length(before behind) > 400) { behind = substr(behind, 1, 200); sub(/[\300-\377][\200-\277]*$/, "", behind); behind = behind " .." }
  print "  " before behind
  if (!mark) return
  size = mark > line_words ? 1 : wide(line_text[mark])
  if (size > wide(behind) && behind != "") size = wide(behind)
  printf "  %*s", wide(before) + (mark > line_words), ""
  while (size--) printf "^"
  print ""
}
