# Has `plan` write the document of each plan in sentences that stands where a command takes a document. It is read by `cstn` alone,
# behind hints.sh. A document is left to the program as a descriptor, and no file stays behind, however the program ends.

LAST_DESCRIPTOR=9
descriptor=2

# Sets `first` and `last` to the places of the words that name documents. The command, at 0, is in front of its words.
find_documents() {
  first=1 last=0
  find_form "$1"
  case $form in
    'plan FILE'*) return ;;
    *'FILE ..') last=$(($# - 1)) ;;
    *FILE*) last=1 && return ;;
  esac
  [ "${2-}" != --deadline ] || { first=3 && shift "$(($# < 2 ? $# : 2))"; }
  [ "${2-}" != --cap ] || first=$((first + 2))
}

# Sets `word` to a name by which the program reads the document of the plan `word`; or writes why there is none, and ends as `plan`
# does. Words that are no request are left to the program, which says so.
open_plan() {
  descriptor=$((descriptor + 1))
  if [ "$descriptor" -gt "$LAST_DESCRIPTOR" ]; then
    say "at most seven plans in sentences can be named at a time: have ./cstn plan write the document of another"
    exit "$NOTHING_TO_RUN"
  fi
  written=$(mktemp) || exit "$NOTHING_TO_RUN"
  "$program" plan "$word" ${deadline:+--deadline "$deadline"} >"$written" </dev/null
  status=$?
  eval "exec $descriptor<\"\$written\""
  rm -f -- "$written"
  [ "$status" -ne 2 ] || return 0
  if [ "$status" -ne 0 ]; then
    cat "/dev/fd/$descriptor"
    tell_status "$status" plan "$word" ${deadline:+--deadline "$deadline"}
    exit "$status"
  fi
  word=/dev/fd/$descriptor
}
