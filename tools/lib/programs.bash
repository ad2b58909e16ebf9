# Which program the launcher runs. `top` is the top of the repository.
# shellcheck disable=SC2034,SC2154  # names that the launcher and its modules share

# Says why there is no program, and ends: status 70.
no_program() {
  say "$*"
  exit 70
}

# Looks at the program that CCR_PROGRAM names.
look_at_named() {
  program=$CCR_PROGRAM
  [[ $program == */* ]] || program="./$program"
  [ -e "$program" ] || no_program "CCR_PROGRAM: there is no file '$CCR_PROGRAM'"
  [ ! -d "$program" ] || no_program "CCR_PROGRAM: '$CCR_PROGRAM' is a directory"
  [ -x "$program" ] || no_program "CCR_PROGRAM: '$CCR_PROGRAM' can't be executed"
  [ ! "$program" -ef "$top/ccr" ] || no_program "CCR_PROGRAM: '$CCR_PROGRAM' is this launcher: it names a built program"
}

# Whether cargo's program is there, and nothing that it is made of is newer.
is_cargo_current() {
  [ -x "$1" ] && [ -z "$(find "$top/Cargo.toml" "$top/rust" "$top"/crates/*/src -type f -newer "$1" -print -quit)" ]
}

# Sets `program` to cargo's, which is built where it has to be.
take_cargos() {
  local why="isn't built"
  [ ! -x "$top/crates/ccr/out/ccr" ] || why="is older than its files"
  program="${CARGO_TARGET_DIR:-$top/target}/release/ccr"
  say "the proved program $why (tools/build): cargo's program of the same sources runs"
  if ! is_cargo_current "$program"; then
    say "cargo builds it now, once, in about a minute"
    attend "" cargo build --release --quiet --manifest-path "$top/Cargo.toml" </dev/null >&2
    if [ "$status" -ne 0 ] || [ ! -x "$program" ]; then no_program "cargo didn't build the program (status $status)"; fi
    touch "$program"
  fi
}

# Sets `program`, and builds it where it has to be built. Fails where the words ask for nothing and none is there.
# CCR_QUIET: what cargo's program would say on standard error the launcher says.
find_program() {
  export CCR_QUIET=1
  if [ -n "$off" ]; then
    program="${CCR_PROGRAM:-$top/crates/ccr/out/ccr}"
    [ -x "$program" ] && [ ! -d "$program" ] && [ ! "$program" -ef "$top/ccr" ]
  elif [ -n "${CCR_PROGRAM:-}" ]; then
    look_at_named
  elif program="$top/crates/ccr/out/ccr" && ! is_current; then
    if [ -f "$top/Cargo.toml" ] && command -v cargo >/dev/null; then
      take_cargos
    else
      say "the program isn't there, or a file of it is newer: it is built now. README.md says how long the first time takes"
      attend "" "$top/tools/build" </dev/null >&2
      [ "$status" -eq 0 ] || exit "$status"
    fi
  fi
}
