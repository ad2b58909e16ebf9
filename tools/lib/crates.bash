# What the launcher and tools/build ask of the crates. `top` is the top of the repository.
# shellcheck disable=SC2034,SC2154  # names that the launcher and its modules share

say() {
  echo "ccr: $*" >&2
}

# The crates that this one stands on, each behind those that it stands on itself.
crates_below() {
  local -A named=() is_found=()
  local found="" name on
  while IFS=: read -r name on; do
    [ -z "$name" ] || named[$name]=$on
  done < <(grep -v '^#' "$top/crates.txt")
  find_below "$1"
  echo "$found"
}

# Adds those to `found`; `named` has what each crate names, crates and libraries of the kit.
find_below() {
  local on
  for on in ${named[$1]}; do
    if [ -n "${named[$on]+set}" ] && [ -z "${is_found[$on]-}" ]; then
      is_found[$on]=yes
      find_below "$on"
      found+="$on "
    fi
  done
}

is_program() {
  [ -f "$top/crates/$1/src/main.rt" ]
}

# Whether a file of these crates is newer than the file.
has_newer() {
  local file=$1 folders=() name part
  for name in "${@:2}"; do
    for part in src specs proofs; do
      [ ! -d "$top/crates/$name/$part" ] || folders+=("$top/crates/$name/$part")
    done
  done
  [ -n "$(find "${folders[@]}" -type f \( -name '*.rt' -o -name '*.antt' \) -newer "$file" -print -quit)" ]
}

# Whether the program is there, and nothing that it is made of is newer. Crates beside the program don't count.
is_current() {
  local made="$top/crates/ccr/out/ccr"
  # shellcheck disable=SC2046
  [ -x "$made" ] && [ ! "$top/crates.txt" -nt "$made" ] && ! has_newer "$made" ccr $(crates_below ccr)
}
