# To be sourced, after checks.sh: what holds of every program that reads one ground record and prints a text.
#   check_record_program PROGRAM MODE EXPECTED
#     PROGRAM   what starts it
#     MODE      the comparison's mode for its text
#     EXPECTED  the folder with its text for each tile of examples/tiles
check_record_program() {
  local program=$1 mode=$2 expected=$3 tile name
  for tile in examples/tiles/*.ground; do
    name=$(basename "$tile" .ground)
    check "$name" prints "$tile" "$expected/$name.txt"
  done
  check 'empty input' empty
  check 'one byte more than the largest record' over_long
  check 'endless input' endless
  check 'input in pieces' pieces examples/tiles/valley.ground "$expected/valley.txt"
  check 'closed output' closed
  check 'full output' full
  check 'against the second program' compared
}

# The tests, on the program that check_record_program was given.
prints() { timeout 20 "$program" <"$1" | cmp - "$2"; }
says() { [ "$(timeout 20 "$program")" = "$1" ]; }
pieces() { { head -c 7 "$1"; sleep 0.2; tail -c +8 "$1"; } | timeout 20 "$program" | cmp - "$2"; }
endless() { timeout 20 "$program" </dev/zero | cmp - <(echo 'refused 2 0'); }
over_long() { head -c 28689 /dev/zero | says 'refused 2 0'; }
empty() { says 'refused 2 0' </dev/null; }
closed() { timeout 20 "$program" <examples/tiles/valley.ground >&-; [ $? -ne 124 ]; }
full() { timeout 20 "$program" <examples/tiles/valley.ground >/dev/full; [ $? -ne 124 ]; }
compared() { (cd tests/compare && cargo run --quiet --offline --release -- "$mode" "$program") | tee "$work/compare" | tail -n 1 | grep -Eq '^compare: [0-9]+ cases, 0 differences$'; }
