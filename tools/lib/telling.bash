# What the launcher tells on standard error of the end of a run.
# shellcheck disable=SC2034,SC2154  # names that the launcher and its modules share

# What the branch, port, queue or handler is that makes the wiring unsteady (tools/lib/unsteady.py), where there is a python3.
tell_unsteady() {
  local rule
  [[ $last =~ (^|$'\n')unsteady\ ([1-5])$'\n' ]] || return 0
  rule=${BASH_REMATCH[2]}
  if [ -n "$input" ] && [ -f "$top/tools/lib/unsteady.py" ] && command -v python3 >/dev/null; then
    python3 -S -E "$top/tools/lib/unsteady.py" "$rule" <"$input" >&2
  fi
}

# What was recognised of the text is said in place of the hints at a word of it.
tell_refusal() {
  local known=""
  [ -z "$input" ] || known=$(recognise)
  if [ -n "$known" ]; then
    "$top/tools/explain" "$status" "$last" "$word" >&2
    say "$known"
  else
    "$top/tools/explain" "$status" "$last" "$word" "$input" >&2
  fi
}

# Tells of the end; the words of the launcher stand behind it.
tell() {
  if [ "$status" -eq 0 ]; then
    [ "$word" != steady ] || tell_unsteady
  elif [ "$status" -eq 1 ] && [ $# -eq 0 ]; then
    help >&2
  elif [ "$status" -eq 1 ] && [ -n "$off" ]; then
    case $off in
      "there is no file "* | *" is a directory") say "$off" ;;
      *) say "$off (./ccr --help)" ;;
    esac
  elif [ "$status" -eq 126 ] || [ "$status" -eq 127 ]; then
    say "'$program' can't be executed"
    status=70
  else
    tell_refusal
  fi
}
