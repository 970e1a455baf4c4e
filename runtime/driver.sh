#!/bin/sh
# Writes a driver in C that makes the calls of a tests file on an instrumented text:
#
#   sh runtime/driver.sh [--all] TEXT TESTS RECORD >driver.c
#
# TEXT is what `mcdc instrument` wrote; the driver includes it by its name without folders, so it is to lie in the same
# folder. RECORD is what `mcdc record` wrote on the source and TESTS: its first three lines begin the target's records
# too, and only tests that returned there are in the driver, since after a trap C promises nothing. With --all each test is
# in the driver, and RECORD may be of no test: then what runs the driver has to notice traps. docs/TARGET.md says how to
# compile and run it.
all=0
[ "$1" != --all ] || { all=1; shift; }
[ $# -eq 3 ] || { echo "usage: sh driver.sh [--all] TEXT TESTS RECORD >driver.c" >&2; exit 2; }
for file in "$@"; do
  [ -r "$file" ] || { echo "driver.sh: cannot read $file" >&2; exit 6; }
done
work=$(mktemp -d) || exit 1
trap 'rm -rf "$work"' EXIT

# The fields of an accepted tests file need no quotation marks, and its records end with LF, CR or both.
tr -d '"' <"$2" | tr '\r' '\n' >"$work/tests"
awk -v all="$all" -v text="${1##*/}" -v tests="${2##*/}" -v driver="$work/driver" '
  # The record: what it begins with, and the state of each test.
  part == 1 && FNR == 1 && $1 != "mcdc-record" { refuse("that is no record: " $0) }
  part == 1 && FNR <= 3 { head = head $0 "\\n" }
  part == 1 && $1 == "bits" { bits = $2 }
  part == 1 && $1 == "test" { state[$2] = $3 }

  # The text: in each line that begins a function outside of braces, its type words stand before its name. A name that
  # a typedef gives to void is one of its names.
  part == 2 { if (depth == 0) item($0) }
  part == 2 && $NF == "{" { depth++ }
  part == 2 && $NF == "}" { depth-- }

  # The tests: a record is a call, and records that follow each other with one name are one test.
  part == 3 && /./ && ++records > 1 {
    split($0, field, ",")
    if (field[1] != name) finish()
    name = field[1]
    if (all) call(field)
    else if (!(name in state)) refuse("the record has no test " name)
    else if (state[name] == "pass" || state[name] == "fail") call(field)
    else left[name] = state[name]
  }
  END {
    finish()
    for (name in left) print "driver.sh: left out: " name ", " left[name] >"/dev/stderr"
    if (!fault) write()
    exit fault
  }

  function refuse(why) {
    if (!fault) print "driver.sh: " why >"/dev/stderr"
    fault = 4
  }
  function item(line,  words, count, at, type) {
    count = split(line, words, " ")
    for (at = 1; at <= count && words[at] != "("; at++) {
      if (words[at] == "main") has_main = 1
      if (words[at + 1] != "(" && words[at] !~ /^(static|extern|const|typedef)$/) type = type words[at] " "
    }
    if (words[count] == "{" && words[count - 1] == ")") type_of[words[at - 1]] = type
    if (line ~ /(^| )typedef / && at > count && is_void(type))
      for (at = 1; at <= count; at++) if (words[at] ~ /^[A-Za-z_]/ && words[at] !~ /^(typedef|const)$/) voids[words[at]] = 1
  }
  function is_void(type,  words, at) {
    for (at = split(type, words, " "); at > 0; at--) if (words[at] == "void" || words[at] in voids) return 1
    return 0
  }

  # A number as a constant of C: the type of a decimal constant without suffix has a sign.
  function constant(number,  digits) {
    digits = number
    sub(/^-/, "", digits)
    if (number ~ /^-/) return digits == "9223372036854775808" ? "(-9223372036854775807 - 1)" : number
    if (length(digits) > 19 || (length(digits) == 19 && digits "" > "9223372036854775807")) return number "u"
    return number
  }
  function constants(numbers) {
    gsub(/ /, ", ", numbers)
    return numbers
  }
  function how_many(numbers,  words) { return split(numbers, words, " ") }

  function call(field,  type, arguments, count, words, at) {
    if (!(field[2] in type_of)) {
      refuse(text " has no body of " field[2])
      return
    }
    inputs = inputs (inputs != "" && field[4] != "" ? " " : "") field[4]
    count = split(field[3], words, " ")
    for (at = 1; at <= count; at++) arguments = arguments (at > 1 ? ", " : "") constant(words[at])
    calls = calls "  {\n"
    if (field[6] == "") calls = calls "    mcdc_call(0, -1);\n"
    else if (field[6] == "none") calls = calls "    mcdc_call(0, 0);\n"
    else {
      calls = calls "    static const int mcdc_outputs[] = { " constants(field[6]) " };\n"
      calls = calls "    mcdc_call(mcdc_outputs, " how_many(field[6]) ");\n"
    }
    type = type_of[field[2]]
    if (is_void(type)) calls = calls "    " field[2] "(" arguments ");\n    mcdc_returned_void();\n"
    else {
      calls = calls "    " type "mcdc_value = " field[2] "(" arguments ");\n"
      sub(/ $/, "", type)
      calls = calls "    mcdc_returned((unsigned long long)mcdc_value, (" type ")-1 < (" type ")1);\n"
    }
    if (field[5] != "") calls = calls "    mcdc_expect(" constant(field[5]) ", " (field[5] ~ /^-/ ? 1 : 0) ");\n"
    calls = calls "  }\n"
  }

  # Ends the test that was read: a function of its own.
  function finish() {
    if (calls != "") {
      count++
      printf "\nstatic void mcdc_test_%d(void) {\n", count >driver
      if (inputs != "") printf "  static const int mcdc_inputs[] = { %s };\n", constants(inputs) >driver
      printf "  mcdc_test(\"%s\", %s, %d);\n", name, inputs == "" ? "0" : "mcdc_inputs", how_many(inputs) >driver
      printf "%s}\n", calls >driver
    }
    calls = inputs = ""
  }

  function write(  bytes, at, line) {
    bytes = int((bits + 7) / 8) + (bits == 0)
    printf "/* Made by runtime/driver.sh from %s: %d tests. */\n", tests, count
    printf "#define MCDC_BITS %d\n", bits + (bits == 0)
    printf "#include \"mcdc.h\"\n#include \"mcdc_record.h\"\n\n"
    if (has_main) printf "/* The host has a main of its own. */\n#define main mcdc_main\n"
    printf "#include \"%s\"\n\n", text
    printf "/* Of how many tests a run keeps the hits: a board with little memory sets 1. */\n"
    printf "#ifndef MCDC_ROWS\n#define MCDC_ROWS %d\n#endif\n", count + (count == 0)
    printf "const char mcdc_head[] = \"%s\";\n", head
    printf "const unsigned long mcdc_bits = %d;\nconst unsigned mcdc_tests = %d;\n", bits, count
    printf "const unsigned mcdc_rows = MCDC_ROWS;\nconst unsigned long mcdc_row_bytes = %d;\n", bytes
    printf "unsigned char mcdc_hits[%dul * MCDC_ROWS];\n", bytes
    printf "const char *mcdc_names[MCDC_ROWS], *mcdc_states[MCDC_ROWS];\n"
    printf "#ifdef MCDC_INLINE\nunsigned char mcdc_row[MCDC_BITS];\n#endif\n"
    close(driver)
    while (count > 0 && (getline line <driver) > 0) print line
    printf "\nvoid mcdc_run(unsigned mcdc_number) {\n  switch (mcdc_number) {\n"
    for (at = 1; at <= count; at++) printf "  case %d: mcdc_test_%d(); break;\n", at, at
    printf "  default: break;\n  }\n}\n"
  }
' part=1 "$3" part=2 "$1" part=3 "$work/tests"
