# What the launcher knows of the words of the program (docs/FORMATS.md, Words).
# shellcheck disable=SC2034,SC2154  # names that the launcher and its modules share

declare -A options_of=(
  [check]="--json" [run]="--workers --schedule --json" [verify]="" [load]="--workers --size --json" [record]="--workers" [replay]="" [steps]="" [steady]=""
  [service]="--workers" [expand]="")
all_words="check, run, verify, load, record, replay, steps, steady, service or expand, as in: ./ccr run --workers 4 < FILE"

# Whether it is a number from the least to the most.
is_number() {
  local digits=$1
  [[ $digits =~ ^[0-9]+$ ]] || return
  digits=${digits#"${digits%%[!0]*}"}
  [ ${#digits} -le 5 ] && [ "${digits:-0}" -ge "$2" ] && [ "${digits:-0}" -le "$3" ]
}

is_file() {
  [ -e "$1" ] && [ ! -d "$1" ]
}

# What is wrong with an option of that name, what stands right behind it, and its value.
off_with_option() {
  case $1 in
    --workers) is_number "$3" 0 16 || echo "--workers wants a number from 0 to 16, and '$3' is none" ;;
    --size) is_number "$3" 1 10000 || echo "--size wants a number from 1 to 10000, and '$3' is none" ;;
    --json | --schedule) [ -z "$2" ] || echo "$1 takes no value" ;;
    -) echo "'-' is no file: where none is named standard input is read, and a file of that name is ./-" ;;
    *) off_with_name "$1" ;;
  esac
}

# What is wrong with an option that there isn't.
off_with_name() {
  local nearest
  find_nearest "$1" --workers --schedule --json --size --help
  if [ -n "$nearest" ]; then
    echo "there is no option '$1': do you mean '$nearest'?"
  else
    echo "there is no option '$1': there are --workers N, --schedule, --json, --size N"
  fi
}

is_word() {
  case $1 in
    check | run | verify | load | record | replay | steps | steady | service | expand) ;;
    *) false ;;
  esac
}

# Sets `off` to what is wrong with the words, where nothing was found before.
find_off() {
  off=${off:-$1}
}

# Sets `words` to what the program is given, `word` to the one that says what it does, `files` to those that it reads in place of standard input, and
# `off` to what is wrong with the words, where something is, and `is_asked` to yes where a word asks for help.
read_words() {
  local has_ended="" name given=() others=()
  words=() files=() word="" off="" is_asked=""
  [ "${1-}" != help ] || is_asked=yes
  while [ $# -gt 0 ]; do
    words+=("$1")
    if [ -n "$has_ended" ] || [[ $1 != -* ]]; then
      if ! is_word "$1"; then
        others+=($((${#words[@]} - 1)))
      elif [ -n "$word" ]; then
        find_off "'$word' and '$1': one of them at a time"
      else
        word=$1
      fi
    elif [ "$1" = -- ]; then
      has_ended=yes
    elif [ "$1" = --help ] || [ "$1" = -h ]; then
      is_asked=yes
    else
      name=${1%%=*}
      [[ " ${given[*]} " != *" $name "* ]] || find_off "$name stands twice"
      given+=("$name")
      if [[ $1 == *=* || ($1 != --workers && $1 != --size) ]]; then
        find_off "$(off_with_option "$name" "${1#"$name"}" "${1#*=}")"
      else
        find_off "$(off_with_option "$name" "=" "${2-}")"
        [ $# -eq 1 ] || { words+=("$2") && shift; }
      fi
    fi
    shift
  done
  take_others "${others[@]}"
  look_at_options "${given[@]}"
}

# What is wrong with a word that is neither an option, nor of the table, nor a file.
off_with_word() {
  local nearest
  if [ -d "$1" ]; then
    echo "'$1' is a directory"
  elif [ -n "$word" ]; then
    echo "there is no file '$1'"
  else
    find_nearest "$1" "${!options_of[@]}"
    if [ -n "$nearest" ]; then echo "there is no word '$1': do you mean '$nearest'?"; else echo "'$1' is neither a word nor a file: the words are $all_words"; fi
  fi
}

# The words at these places are neither options nor of the table: files to be read, or what is wrong.
take_others() {
  local at other
  for at in "$@"; do
    other=${words[at]}
    if ! is_file "$other"; then
      find_off "$(off_with_word "$other")"
    elif [ "$word" = load ]; then
      find_off "'load' reads nothing: leave out '$other'"
    elif [ -z "$word" ]; then
      find_off "'$other' is a file, and a word says what to do with it, as in: ./ccr run --workers 4 $other"
    else
      [[ $other != -* ]] || other="./$other"
      files+=("$other")
      unset "words[at]"
    fi
  done
  words=("${words[@]}")
}

look_at_options() {
  local name
  [ -n "$word" ] || find_off "a word is missing: $all_words"
  for name in "$@"; do
    [[ -z $word || " ${options_of[$word]} " == *" $name "* ]] || find_off "'$word' has no option $name"
  done
}
