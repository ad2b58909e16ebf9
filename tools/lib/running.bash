# How the launcher runs the program, hands signals on to it, and says how far it is.
# shellcheck disable=SC2034,SC2154  # names that the launcher and its modules share

# How many bytes the process has written, where the system tells.
written() {
  local name number
  while read -r name number; do
    [ "$name" != wchar: ] || echo ", $number bytes are written"
  done 2>/dev/null <"/proc/$1/io"
}

# While that process lives: how far it is, after a second, and then ever more seldom.
tell_work() {
  local seconds=0 next=1
  while sleep 1 && kill -0 "$1" 2>/dev/null; do
    seconds=$((seconds + 1))
    if [ "$seconds" -ge "$next" ]; then
      say "at work for $seconds s$(written "$1")"
      next=$((2 * next))
    fi
  done
}

# Becomes the command, which a signal ends as if it had been started alone. Where somebody looks on and types nothing, what takes long is told about.
become() {
  local told=$1
  shift
  trap - INT QUIT
  if [ -n "$told" ] && [ -t 2 ] && [ ! -t 0 ]; then
    case $word in run | load | record | replay | steps | service) tell_work "$BASHPID" </dev/null >/dev/null & ;; esac
  fi
  exec "$@"
}

# Hands the signal on to the command, once that is started.
hand_on() {
  caught=$1
  [ -z "$child" ] || kill -s "$1" "$child" 2>/dev/null
}

# Starts the command, hands TERM, HUP and INT on to it, and sets `status` to its own. After such a signal the launcher ends with 128 and its number.
attend() {
  local caught="" child="" name
  for name in TERM HUP INT; do
    # shellcheck disable=SC2064
    trap "hand_on $name" "$name"
  done
  become "$@" <&0 &
  child=$!
  [ -z "$caught" ] || kill -s "$caught" "$child" 2>/dev/null
  while :; do
    wait "$child"
    status=$?
    { [ -n "$caught" ] && kill -0 "$child" 2>/dev/null; } || break
  done
  trap - TERM HUP INT
  if [ -n "$caught" ]; then
    [ -z "$copier" ] || kill "$copier" 2>/dev/null
    exit $((128 + $(kill -l "$caught")))
  fi
}

# Hands on what it reads, byte for byte, and writes the end of it, a line feed, and whether a write failed.
copy_out() {
  {
    tee --output-error=exit /dev/fd/4 2>/dev/null >&3
    printf '\n%s' "$?" >&4
  } 4>&1 | tail -c 300
}

# Runs a command, hands its standard output on byte for byte, and sets `status` and `last`, the end of that output.
# A copy that couldn't be written is a write that failed: status 4, as the program has it. A reader that is gone counts too, also where that signal is ignored.
run() {
  local copied
  exec 3>&1
  coproc copying { copy_out; }
  # shellcheck disable=SC2154
  exec 8>&"${copying[1]}" 9<&"${copying[0]}"
  eval "exec ${copying[1]}>&- ${copying[0]}<&-"
  exec 1>&8 8>&-
  attend told "$@" 3>&- 5>&- 9<&-
  exec 1>&3 3>&-
  read -r -d '' -u 9 last
  copied=${last##*$'\n'} last=${last%$'\n'*}
  [ -z "$copier" ] || kill "$copier" 2>/dev/null
  if [ "$copied" != 0 ]; then
    case $status in 0 | 1 | 2 | 6 | 7 | 8) status=4 ;; esac
  fi
}
