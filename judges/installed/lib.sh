# What judges/package and installed/trial share: counts, comparisons, and a question to the server.
# `work` is a temporary folder.
passed=0
failed=0
pass() { passed=$((passed + 1)); }
fail() { failed=$((failed + 1)); echo "FAILED: $*"; }

# holds WHAT COMMAND..: whether the command succeeds; what it says, if it doesn't
holds() {
  local what=$1
  shift
  if "$@" >"$work/said" 2>&1; then pass; else fail "$what: $(head -n 20 "$work/said")"; fi
}

# is WHAT WANTED GOT
is() { if [ "$3" = "$2" ]; then pass; else fail "$1: '$3', not '$2'"; fi; }

# What is sent is the discovery of examples/discovery.script; its confirm has the zone's name and
# the address of examples/gatekeeper.toml.
discovery='\x00\x00\x00\x00\x06\x00\x08\x91\x4A\x00\x02\x00\x0A\x00\x00\x05\x06\xB7\x02\x00'
confirm_by_gk=04800000060008914a0002020067006b007f00000106b7
confirm_by_changed=04800000060008914a00020c006300680061006e006700650064007f00000106b7

# answer: what the server answers, as digits
answer() {
  exec 3<>/dev/udp/127.0.0.1/1719
  # (one write is one datagram)
  printf "$discovery" >"$work/request"
  cat "$work/request" >&3
  timeout 5 dd bs=64 count=1 <&3 2>/dev/null | od -An -v -tx1 | tr -d ' \n'
  exec 3>&-
}

# answer_soon: what answers the first discovery that is answered, within ten seconds
answer_soon() {
  local got
  for _ in $(seq 20); do
    got=$(answer)
    [ -z "$got" ] || break
    sleep 0.5
  done
  echo "$got"
}

# counts: what passed and what failed; whether nothing failed
counts() {
  echo "$passed passed, $failed failed"
  [ "$failed" -eq 0 ] && [ "$passed" -gt 0 ]
}
