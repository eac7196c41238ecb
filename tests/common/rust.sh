# Functions for the scripts of tests/: rustc is run only where something changed. The caller sets `out`.
rust_edition=2024

# stale OUTPUT INPUT..: whether OUTPUT is missing or older than an INPUT.
stale() {
  local output=$1 input
  shift
  [ -e "$output" ] || return 0
  for input in "$@"; do
    [ "$input" -nt "$output" ] && return 0
  done
  return 1
}

# compiled OUTPUT SOURCE 'INPUTS' WORDS..: OUTPUT from SOURCE, again where one of INPUTS is newer.
compiled() {
  local output=$1 source=$2 inputs=$3
  shift 3
  # the list of files is meant to be split
  # shellcheck disable=SC2086
  stale "$output" "$source" $inputs || return 0
  mkdir -p "$(dirname "$output")"
  rustc --edition "$rust_edition" -O -L "dependency=$out" "$@" -o "$output.new" "$source"
  mv "$output.new" "$output"
}

# rust_crate: the Rust crate over target/staticlib/libsulyterom.a, as libsulyterom.rlib.
rust_crate() {
  compiled "$out/libsulyterom.rlib" rust/src/lib.rs "$(echo rust/src/*.rs) target/staticlib/libsulyterom.a" \
    --crate-type rlib --crate-name sulyterom -L native=target/staticlib
}
