# What the launcher gives the program to read: standard input, or the files in place of it.
# shellcheck disable=SC2034,SC2154  # names that the launcher and its modules share

# Says what is wrong with the file where it can't be read, and ends: status 3.
look_at_file() {
  [ -r "$1" ] || { say "'$1' can't be read: permission denied"; exit 3; }
}

# The files one behind the other, with a line feed behind each but the last where it ends without one.
joined() {
  local file
  for file in "${@:1:$#-1}"; do
    cat -- "$file"
    [ ! -f "$file" ] || [ -z "$(tail -c 1 -- "$file" | tr '\0' x)" ] || echo
  done
  cat -- "${@: -1}"
}

# Opens the files in place of standard input.
open_files() {
  local file
  for file in "${files[@]}"; do
    look_at_file "$file"
  done
  if [ ${#files[@]} -eq 1 ]; then exec <"${files[0]}"; elif [ ${#files[@]} -gt 1 ]; then exec < <(joined "${files[@]}"); fi
}

# Sets `input` to a name by which what is read can be read once more: the file, or a copy of what a pipe gives, which `copier` makes.
keep_input() {
  local at="" name
  { read -r -u 6 _ at; } 2>/dev/null 6</proc/self/fdinfo/0
  if [ -f /dev/fd/0 ] && [ "$at" = 0 ]; then
    input=/proc/$$/fd/0
  elif [ /dev/fd/0 -ef /dev/null ]; then
    input=/dev/null
  elif [ -p /dev/fd/0 ] && name=$(mktemp 2>/dev/null); then
    { exec 5<>"$name"; } && rm -f "$name" && input=/proc/$$/fd/5
    exec < <(exec tee /dev/fd/5 2>/dev/null)
    copier=$!
  fi
}
