# The usage line of the program, and the launcher's help.
# shellcheck disable=SC2034,SC2154  # names that the launcher and its modules share

usage() {
  printf '%s\ndone 1\n' "usage: ccr check|run|verify|load|record|replay|steps|steady|service|expand [--workers N] [--schedule] [--json] [--size N]"
}

help() {
  cat <<'END'
usage: ccr WORD [OPTIONS] [FILE ..]          where no file is named, standard input is read

  check     is it a wiring? writes its canonical text                  --json
  run       runs a wiring, writes its history and a report             --workers N, --schedule, --json
  verify    judges a wiring with an output of run behind it
  load      runs a generated wiring, writes the totals                 --workers N, --size N, --json
  record    runs a wiring, writes whose turn it was, step by step      --workers N
  replay    runs a record again, writes its history and a report
  steps     runs a record again, writes each step
  steady    writes the totals of a wiring, where they don't depend on who comes first
  service   runs a service, writes what became of each request         --workers N
  expand    writes the wiring that a service stands for

  ccr run --workers 0 examples/first.ccr                   on one thread: the same output each time
  ccr run --workers 4 < examples/service.ccr > out.txt     on threads: one of many legal outputs
  ccr verify examples/service.ccr out.txt                  is it legal, complete, quiet?

--workers is 0 to 16 (4; for load 0), --size 1 to 10,000 (1,000). Standard output ends with 'done N', and N is the exit status: 0 all is well, 1 other
words are due, 2 the text is refused, 6 a task was shed, 7 the output is wrong, 8 the text is too long (docs/FORMATS.md, What the program writes).
END
}

# The help of one word, or all of it. It writes on standard output.
help_of() {
  local line
  if [ -z "$1" ]; then
    help
    return
  fi
  line=$(help | grep "^  $1 ") || return
  echo "usage: ccr $1${options_of[$1]:+ [OPTIONS]}$(file_of "$1")"
  echo
  echo "$line"
  echo
  echo "./ccr --help has the other words, and docs/FORMATS.md each byte."
}

# What the word reads.
file_of() {
  case $1 in
    load) ;;
    verify) echo " [WIRING OUTPUT]" ;;
    *) echo " [FILE]" ;;
  esac
}
