# What `run` and `try-judges` share: the packages, the compiled modules and the judges. GATEKEEPER
# is the program to judge, STORIES how many stories of requests are written, JUDGES_FOLDER a
# temporary folder.
here=$(cd "$(dirname "${BASH_SOURCE[0]}")" && pwd)
export GATEKEEPER=${GATEKEEPER:-$here/../gatekeeper}
export STORIES=${STORIES:-40}
export EXAMPLES=$here/../examples VECTORS=$here/../crates/vectors/src WORKED_TERMS=$here/codec/worked.terms

# Says that a Debian package is missing if a command doesn't succeed.
needs() {
  local package=$1
  shift
  "$@" >/dev/null 2>&1 && return
  echo "judges: the Debian package $package is missing" >&2
  return 1
}

# Returns only if all packages are there.
check_packages() {
  local missing=0
  needs python3 python3 -c 'import xml.etree.ElementTree' || missing=1
  needs tshark tshark --version || missing=1
  needs erlang-base command -v erlc || missing=1
  needs erlang-asn1 erl -noshell -eval 'halt(case code:which(asn1ct) of non_existing -> 1; _ -> 0 end).' || missing=1
  [ "$missing" -eq 0 ] || exit 2
}

# Makes the temporary folder, with the two modules and the judges that are written in Erlang.
compile() {
  JUDGES_FOLDER=$(mktemp -d)
  export JUDGES_FOLDER
  trap 'rm -rf "$JUDGES_FOLDER"' EXIT
  "$here/codec/extend" "$here/codec/H225.asn1" >"$JUDGES_FOLDER/H225Later.asn1"
  erlc -bper +maps -o "$JUDGES_FOLDER" "$here/codec/H225.asn1"
  erlc -bper +maps -o "$JUDGES_FOLDER" "$JUDGES_FOLDER/H225Later.asn1"
  erlc -o "$JUDGES_FOLDER" "$here"/codec/*.erl
}

# The judges. Each prints what it finds, ends with `N passed, M failed`, and returns 1 if any
# failed.
judge_replies() { python3 -B "$here/dissector/judge.py" "$EXAMPLES" "$GATEKEEPER"; }
judge_octets() { erlang judge_octets; }
judge_vectors() { erlang judge_vectors; }
judge_requests() { erlang judge_requests; }
judge_timers() { erlang judge_timers; }

erlang() {
  ERL_CRASH_DUMP=/dev/null erl -noshell -pa "$JUDGES_FOLDER" -s "$1" main
}
