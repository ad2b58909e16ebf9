# What the text is that was read, where it isn't what is due: asked only where the program refused it. `input` is its name, `last` the end of the output.
# shellcheck disable=SC2034,SC2154  # names that the launcher and its modules share

# Sets `kind` to what these bytes are where they are no plain text: utf-16, utf-16le, utf-16be, marked, binary.
kind_of() {
  case $1 in
    fffe* | feff*) kind=utf-16 ;;
    efbbbf*) kind=marked ;;
    *) if [[ $1 =~ ^([0-7][0-9a-f]00)+$ ]]; then
        kind=utf-16le
      elif [[ $1 =~ ^(00[0-7][0-9a-f])+$ ]]; then
        kind=utf-16be
      elif [[ $1 =~ ^([0-9a-f]{2})*(0[0-8bcef]|1[0-9a-f]|7f) ]]; then
        kind=binary
      fi ;;
  esac
}

in_hex() {
  head -c 512 | od -An -v -tx1 | tr -d ' \n'
}

# Sets `kind` to what the text's first bytes are, else those of the line that was refused; cr where CR ends lines and LF none.
find_bytes() {
  kind=""
  kind_of "$(in_hex <"$input")"
  [ -n "$kind" ] || kind_of "$(sed -n "$1{p;q}" "$input" | in_hex)"
  if [ -z "$kind" ] && head -c 512 "$input" | grep -aq $'\r' && [ "$(tr -dc '\n' <"$input" | head -c 1 | wc -c)" -eq 0 ]; then
    kind=cr
  fi
}

# The first two words of the first line that has one and isn't skipped, and those of a line by its number.
first_words() {
  sed -n '/^[[:blank:]\r]*\(#.*\)\{0,1\}$/d; s/^[[:blank:]]*//; s/[[:blank:]\r]\{1,\}/ /gp; tp; p; q; :p; q' "$input" | tr -d '\0' | cut -d ' ' -f 1,2
}

line_at() {
  sed -n "$1{p;q}" "$input" | tr -d '\0'
}

# Whether a line of the text begins so.
has_line() {
  grep -aq "^$1" "$input"
}

# What to do with bytes that are no plain text.
say_bytes() {
  case $1 in
    utf-16*) echo "the text is UTF-16, and plain ASCII is due: iconv -f ${1^^} -t ASCII FILE" ;;
    marked) echo "the text begins with the byte order mark of UTF-8, and plain ASCII is due: tail -c +4 FILE" ;;
    binary) echo "this is binary data, and a text is due" ;;
    cr) printf '%s\n' "the lines end in CR alone, and LF is due: tr '\r' '\n' <FILE" ;;
  esac
}

# What is said of a whole text of another kind than is due, by its first words.
say_kind() {
  local due="'$word' reads a wiring"
  case $word in
    service | expand) due="'$word' reads the text of a service, which begins with 'service 1'" ;;
    replay | steps) due="'$word' reads a record, which 'record' writes" ;;
    verify) due="'verify' reads a wiring and then its output: ./ccr verify WIRING OUTPUT" ;;
  esac
  case $1 in
    "history "[12]) echo "this begins with an output of 'run' or 'service', and $due" ;;
    "ccr "[12]) case $word in service | expand) echo "this is a wiring, and $due" ;; esac ;;
    "service 1") case $word in service | expand) ;; *) echo "this is the text of a service, and $due; 'expand' writes the wiring of a service" ;; esac ;;
    "step "*) echo "these are the steps that 'steps' writes, and $due" ;;
    "{"*) echo "this is JSON, and $due" ;;
    "") echo "the text is empty, and $due" ;;
  esac
}

# Whether the words ask for turn lines.
is_scheduled() {
  [[ " ${words[*]} " == *" --schedule "* ]]
}

# What is said of the line that was refused.
say_line() {
  local line
  line=$(line_at "$1")
  case $line in
    "ccr "[12] | "ccr "[12]$'\r') echo "here a second wiring begins, and '$word' reads one" ;;
    "record 1 "*) case $word in replay | steps) ;; *) echo "here a record begins: './ccr replay' runs it again" ;; esac ;;
    "history "[12]) case $word in verify) ;; *) echo "here an output of 'run' begins: './ccr verify' judges it" ;; esac ;;
    "turn "*) [ "$word" != run ] || is_scheduled || echo "here turn lines begin: 'run --schedule' reads them" ;;
    "done 0") case $word in check | run | record | steady | verify) echo "this is the last line that 'check' and 'expand' write, and no line of a wiring: sed '\$d' FILE takes it out" ;; esac ;;
  esac
}

# What is said of a line that is none of a history.
say_history() {
  local line
  line=$(line_at "$1")
  case $line in
    *$'\r') printf '%s\n' "the output's lines end in CR LF, and LF alone is due: tr -d '\r' <OUTPUT" ;;
    "client "*) echo "this is an output of 'service', and 'verify' judges one of 'run': run what './ccr expand' writes" ;;
    "{"*) echo "this is an output of 'run --json', and 'verify' judges one without --json" ;;
    *) if [ "$2" -eq 3 ] && ! has_line "history "; then echo "no output stands behind the wiring: ./ccr verify WIRING OUTPUT"; fi ;;
  esac
}

# What the text is, in one line, where it is known; else nothing.
recognise() {
  local kind said number code
  read -r said number code <<<"$(grep -aE '^(refused|malformed) [0-9]+ [0-9]+$' <<<"$last" | tail -n 1)"
  [ -n "$said" ] || return 0
  find_bytes "$number"
  if [ -n "$kind" ]; then
    say_bytes "$kind"
  elif [ "$said" = malformed ]; then
    say_history "$number" "$code"
  elif [ "$code" -eq 2 ]; then
    say_kind "$(first_words)"
  elif [ "$code" -eq 16 ]; then
    if has_line "history "; then
      echo "this is an output of 'run', and '$word' reads a record, which 'record' writes"
    else
      echo "this is a wiring, and '$word' reads a record: ./ccr record WIRING > RECORD"
    fi
  else
    say_line "$number"
  fi
}
