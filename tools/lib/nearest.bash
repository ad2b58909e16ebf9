# The nearest of some words, for what was misspelt.
# shellcheck disable=SC2034,SC2154  # names that the launcher and its modules share

# Sets `distance` to how many letters are added, left out, changed or swapped with the next from the one word to the other.
measure() {
  local from=$1 to=$2 i j cost best above=() before=() row=()
  for ((j = 0; j <= ${#to}; j++)); do before[j]=$j; done
  for ((i = 1; i <= ${#from}; i++)); do
    row=("$i")
    for ((j = 1; j <= ${#to}; j++)); do
      cost=1
      [ "${from:i-1:1}" != "${to:j-1:1}" ] || cost=0
      best=$((before[j] + 1 < row[j - 1] + 1 ? before[j] + 1 : row[j - 1] + 1))
      best=$((before[j - 1] + cost < best ? before[j - 1] + cost : best))
      if [ "$i" -gt 1 ] && [ "$j" -gt 1 ] && [ "${from:i-1:1}${from:i-2:1}" = "${to:j-2:1}${to:j-1:1}" ]; then
        best=$((above[j - 2] + 1 < best ? above[j - 2] + 1 : best))
      fi
      row[j]=$best
    done
    above=("${before[@]}") before=("${row[@]}")
  done
  distance=${before[${#to}]}
}

# Sets `nearest` to the first of the words behind the first that is least far from it: one letter, or two where it has five or more; else to nothing.
find_nearest() {
  local wanted=${1,,} it distance least=3
  nearest=""
  [ ${#wanted} -le 20 ] || return 0
  [ ${#wanted} -ge 5 ] || least=2
  for it in "${@:2}"; do
    measure "$wanted" "$it"
    if [ "$distance" -lt "$least" ]; then nearest=$it least=$distance; fi
  done
}
