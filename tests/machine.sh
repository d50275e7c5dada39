# To be sourced, from the top of the repository: how its programs and libraries are proved, built and found. The prover runs on x86-64
# alone, and builds for it.
#   starter NAME            the path of a program of the repository; it is proved and built first where it isn't up to date
#   build_library CRATE...  proves and builds target/staticlib/libCRATE.a for each that isn't up to date; with no crate, the console's
#   reach_library           the same for programs in Rust, and all libraries: the array `features` is for cargo, and the environment has the rest

# Whether what was built is newer than all that it is proved and built from.
up_to_date() {
  [ -e "$1" ] && [ -z "$(find crates.txt crates/*/src crates/*/specs crates/*/proofs -newer "$1" -print -quit)" ]
}

# Proves a crate and all that it rests on, and builds it: a program by `rt run`, on an empty input, a library by `rt lib`. Each crate that
# is looked at is named on standard error once it is proved; what the prover says is shown only where it fails.
build() {
  local log code line name=
  log=$(mktemp)
  (cd "crates/$1" && rt "$2" </dev/null 2>&1) | tee "$log" | while IFS= read -r line; do
    if [[ $line =~ ^crate\ ([a-z0-9_]+): ]]; then
      name=${BASH_REMATCH[1]}
    elif [[ $line == 'logic=proved '* ]]; then
      echo "proved: $name" >&2
    fi
  done
  code=${PIPESTATUS[0]}
  [ "$code" -eq 0 ] || cat "$log" >&2
  rm -f "$log"
  return "$code"
}

starter() {
  local program=crates/$1/out/$1
  if ! up_to_date "$program"; then
    [ -x "$program" ] || echo "proving and building $1: some minutes, once" >&2
    build "$1" run || return 1
  fi
  echo "$PWD/$program"
}

build_library() {
  local crate library
  mkdir -p target/staticlib
  for crate in "${@:-askvimur}"; do
    library=target/staticlib/lib$crate.a
    up_to_date "$library" && continue
    build "$crate" lib || return 1
    cp "crates/$crate/out/lib$crate.a" "$library"
  done
}

reach_library() {
  build_library askvimur askvimur_service || return 1
  export ASKVIMUR_LIB=$PWD/target/staticlib
  features=(--features linked)
}
