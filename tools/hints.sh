# What the script `cstn` says beside the program's answers: the commands, and in words what a status means. It is read by `cstn`
# alone, and says all but the list of commands on standard error. `$top` is the root of the repository, `$program` the program.

# Calls $1 with the form of each command, and with what it writes.
each_command() {
  while IFS='|' read -r form writes; do
    "$1" "${form% }" "${writes# }"
  done <"$top/tools/commands.txt"
}

tell_command() {
  printf '  %s\n      %s\n' "$1" "$2"
}

tell_commands() {
  echo "./cstn COMMAND ..: exact forms, answers and statuses are in docs/commands.md, or in \`man ./cstn.1\`"
  each_command tell_command
  echo "FILE may be a plan in sentences in place of a document, if its name ends in .plan"
  echo "./cstn --version says more: which program is taken, and what it was made from; ./cstn --program writes where it is"
  echo "./cstn explain FILE [PROOF] says a document, a no, a tree or what follow answers in words, what of FILE was passed over, and why it is refused"
  echo "./cstn draw network FILE, draw cases FILE, draw now FILE SESSION and draw --html FILE write pictures of a plan: docs/draw.md"
  echo "./cstn board FILE .. [--tick SECONDS] is a local web page for those who carry plans out: docs/board.md"
  echo "What \`refused ..\` means in run, edit, follow and host, and what to do: docs/guide.md, under \"Every refusal\""
  echo "That one file is what to install; CSTN_NO_BUILD=1 ./cstn COMMAND .. never begins a build"
}

# Sets `form` to that of the command $1, or to nothing if there is none.
find_form() {
  while IFS='|' read -r form _; do
    form=${form% }
    [ "${form%% *}" != "$1" ] || return 0
  done <"$top/tools/commands.txt"
  form=
}

# Calls $1 with each word that names a file, among a command and its words: FILE, and PROOF if the command takes it, or all behind
# the options. It ends with the first call that fails.
each_file() {
  call=$1
  find_form "$2"
  shift 2
  case $form in
    *'FILE PROOF'*) "$call" "${1-}" && "$call" "${2-}" ;;
    *'FILE ..')
      [ "${1-}" != --deadline ] || shift "$(($# < 2 ? $# : 2))"
      [ "${1-}" != --cap ] || shift "$(($# < 2 ? $# : 2))"
      for word in "$@"; do "$call" "$word" || break; done
      ;;
    *FILE*) "$call" "${1-}" ;;
  esac
}

# A file's name, with ? for each control character.
shown() {
  printf %s "$1" | LC_ALL=C tr '\001-\037\177' '?'
}

# Says of a file why it cannot be read, if it cannot.
tell_unreadable() {
  if [ -d "$1" ]; then
    told="$(shown "$1") is a folder, and a file is wanted"
  elif [ ! -e "$1" ]; then
    told="there is no file $(shown "$1")"
  elif [ ! -f "$1" ] || [ ! -r "$1" ]; then
    told="$(shown "$1") cannot be read"
  else
    return 0
  fi
  say "$told"
}

# Says which files cannot be read, or that the standard input could not be, if all can.
tell_unread() {
  told=
  each_file tell_unreadable "$@"
  [ -n "$told" ] || say "the standard input could not be read"
}

# The command that a word stands for, but for one letter or two that are exchanged.
meant() {
  word=$(printf '%.20s' "$1" | tr '[:upper:]' '[:lower:]') awk '
    function without(word, at) { return substr(word, 1, at - 1) substr(word, at + 1) }
    function is_near(one, other, at, found) {
      for (at = 0; at <= length(one); at++) found[without(one, at)]
      for (at = 0; at <= length(other); at++) if (without(other, at) in found) return 1
    }
    is_near($1, ENVIRON["word"]) { print $1; exit }' "$top/tools/commands.txt"
}

# The form of a command, for words that are no request.
tell_form() {
  find_form "$1"
  if [ -n "$form" ]; then
    say "these words are no request; the form is: $form"
    case $form in
      *NUMBER) say "(NUMBER from 0 to 18446744073709551615, without a leading zero)" ;;
      *'FILE ..') say "(options in this order; N from 0 to 1000000, CAP from 1 to 65536, without a leading zero; 1 to 8 files)" ;;
      *) say "(options in this order; N from 0 to 1000000, CAP from 1 to 4194304, without a leading zero)" ;;
    esac
  else
    near=$(meant "$1")
    say "these words are no request${near:+; did you mean $near?}; --help lists the commands"
  fi
}

# The lines that a command takes.
lines_of() {
  case $1 in
    run) echo "moment T, see P true, see P false, due" ;;
    edit) echo "add FROM TO W LABEL (LABEL is - or as in p!q, never with ¬; W is from -1000000000 to 1000000000 and has no +; a space in a name is %20), remove ID, change ID W, check" ;;
    follow) echo "did T NAME NAME .. (done at T), saw T P true, saw T P false (an outcome at T), now T, await T P (expected at T), expect T NAME (not before T), next, by NAME, by, until, late P, raise ID, least, verdict, check, blame, rest, try LINE, mark, back, cap N, deadline N, forgive, step NAME, digest, and add FROM TO W LABEL, remove ID, change ID W" ;;
    host) echo "open ID K, on ID moment T, on ID see P true, on ID see P false, on ID due, close ID" ;;
  esac
}

# What the refusals of a run, and of a session that follows, mean.
refusals_of() {
  case $1 in
    run | host) echo "E1 the moment is not above the last one, E2 another moment is due before, E3 an outcome is awaited by then, E4 not observed yet, or never, E5 told already" ;;
    follow) echo "F1 it is later already, F2 a moment out of range, F3 no such time-point, F4 done already, F5 its label is not decided, F6 nobody who was done observes it, F7 told already, F8 too many constraints, M1 eight marks are set, M2 no mark is set, \`line N\` none of these lines" ;;
  esac
}

# At a terminal, before the program runs: what may be said to it.
tell_live() {
  [ -t 0 ] || return 0
  meanings=$(refusals_of "$1")
  say "$1 takes the lines $(lines_of "$1")"
  say "an answer \`refused ..\` changes nothing${meanings:+: $meanings} (what to do: docs/guide.md, \"Every refusal\")"
  [ "$1" != follow ] || say "./cstn explain --follow FILE takes times as 22:14, words for letters and quoted names, and answers in words"
}

# What a line, or PROOF, is not.
tell_lines() {
  case $1 in
    run | edit | host)
      say "that line is none of: $(lines_of "$1"). Words are lower case, and an empty line, or one with a CR at its end, is none"
      say "everything ended at that line; N counts the lines from 1. Begin again, say the lines that were accepted, and go on"
      ;;
    follow) say "a line has 4096 bytes at most, and a session 16777216 lines. Begin again, say the lines that were accepted, and go on" ;;
    replay) say "PROOF is no text of a no of FILE, from its line no LOAD to its last step, or has a name that FILE lacks. Of what conflict wrote leave out the first line, of what tight wrote all lines above no" ;;
    closedcheck) say "PROOF is no text that closed wrote after a yes: of what tight wrote take the lines from yes up to no" ;;
    treecheck) say "PROOF is no text that tree wrote after a yes" ;;
  esac
}

# After a yes of `check`, at a terminal: what was understood is not told by it. Of a plan in sentences nothing is passed over.
tell_accepted() {
  [ -t 0 ] && [ "$1" = check ] || return 0
  passed="a misspelt key is passed over without a word; "
  [ -z "${descriptor-}" ] || passed=
  say "$passed./cstn explain FILE says what was understood"
}

# What a check of PROOF that says no means, at a terminal.
tell_rejected() {
  [ -t 0 ] || return 0
  case $1 in
    replay | closedcheck | treecheck) say "PROOF does not hold of FILE there. Was it written with another --deadline, or of another document?" ;;
  esac
}

# The number behind --deadline among the words, or nothing.
deadline_of() {
  while [ $# -gt 1 ]; do
    [ "$1" != --deadline ] || { printf '%s\n' "$2" && return; }
    shift
  done
}

# Sets `said` to what `save`, which takes labels on time-points, says of a file: `refused`, or `labels`; it fails then. An earlier
# file may have been neither.
ask_save() {
  [ -f "$1" ] || return 1
  saved=$("$program" save "$1" ${deadline:+--deadline "$deadline"} 2>/dev/null </dev/null)
  [ $? -ne 3 ] || said=refused
  case $saved in *'<data key="Label">'*) said=labels ;; esac
  [ -z "$said" ]
}

# What a command says that takes no labels on time-points.
labels_of() {
  case $1 in
    conflict) echo "conflict takes no labels on time-points; ./cstn explain --conflict FILE does, and tells the answer with the lines of FILE" ;;
    edit) echo "edit takes no labels on time-points; follow has the same edits, and takes them" ;;
    host) echo "host takes no labels on time-points; carry out such a document by run, once for each plan" ;;
    tree) echo "tree takes no labels on time-points; cases does, and writes such a tree; ./cstn explain --tree FILE says it in words" ;;
    *) echo "$1 takes no labels on time-points; docs/guide.md says under \"Labels on time-points\" which commands do" ;;
  esac
}

# Why a plan in sentences is refused, in words, with its line and a mark under the word in question.
tell_plan() {
  refusal=$("$program" plan "$1" ${deadline:+--deadline "$deadline"} 2>/dev/null </dev/null)
  REFUSAL=$refusal PLAN=$(shown "$1") LC_ALL=C awk -f "$top/tools/refused.awk" "$top/python/cstn/places.txt" - <"$1" |
    while IFS= read -r told; do say "$told"; done
}

# Of each plan in sentences among the words why it is refused, if it is.
tell_refused_plans() {
  deadline=$(deadline_of "$@")
  for word in "$@"; do
    case $word in
      *.plan)
        [ -f "$word" ] || continue
        "$program" plan "$word" ${deadline:+--deadline "$deadline"} >/dev/null 2>&1 </dev/null
        [ "$?" -ne 3 ] || tell_plan "$word"
        ;;
    esac
  done
}

# Why a document is refused: for its labels, or for another fault.
tell_document() {
  said=
  deadline=$(deadline_of "$@")
  case $1 in
    plan) tell_plan "$2"; return ;;
    check | run | follow | save | replay | closed | closedcheck | tight | sentences) said=refused ;;
    *) each_file ask_save "$@" ;;
  esac
  case $said in
    labels) say "$(labels_of "$1")" ;;
    refused) say "the document is refused; ./cstn explain FILE says why, and shows the line" ;;
    *) say "\`document labels\` means: $(labels_of "$1"). Any other refusal: ./cstn explain FILE says why" ;;
  esac
}

# What a status means, in words. The answer itself is the program's alone.
tell_status() {
  ended=$1
  shift
  case $ended in
    0) tell_accepted "${1-}" ;;
    1) tell_rejected "${1-}" ;;
    2) tell_form "${1-}" ;;
    3) tell_document "$@" ;;
    4) say "the check was stopped: more bounds were derived than --cap allows. Say a larger one, or take a coarser tick" ;;
    5) tell_unread "$@" ;;
    6) say "the output could not be written" ;;
    7) say "memory was refused; a smaller --cap takes less" ;;
    8) say "the lines ended before everything was executed. Begin again, say the lines that were accepted, and go on" ;;
    9) tell_lines "$1" ;;
    10) say "there are too many cases for a tree; closed and run take the document" ;;
  esac
}
