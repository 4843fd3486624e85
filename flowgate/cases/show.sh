# --show: the parts in readable form. Rule 10 accepts any program under equal sets whose identifiers it doesn't modify.

# certificate WORD...: these words behind the word that counts them
certificate() {
    words "63:$(($# + 1))" "$@"
}

# every command and every expression, and the brackets that they need
show_commands() {
    certificate 25:0 24:0 25:0 26:0 8:2 2:1 1:67108863 25:0 27:0 3:1 3:0 2:1 1:2 3:2 2:2 2:3 25:0 28:0 18:0 17:0 1:3 2:1 \
        25:0 28:0 18:0 16:0 2:1 4:0 16:1 2:2 25:0 28:0 18:0 18:0 16:0 1:0 1:1 1:1 1:2 25:0 28:0 18:0 16:31 1:0 1:1 \
        25:0 29:0 10:0 10:0 8:1 2:1 2:2 11:0 9:1 9:0 12:0 8:0 2:1 2:2 25:0 24:0 24:0 30:0 9:0 29:0 9:1 24:0 24:0 \
        31:996 27:0 1:33554432 32:0 32:0 33:10 > commands
    lines 0 --show commands << 'END'
commands: accepted 1
program
  skip
  assert(x1 ≤ -1)
  x0 := ((x1 + 2) - (x2 × x3))
  a0 := Z{3 : x1}
  a0[x1] := a1[x2]
  a0 := a0{0 : 1}{1 : 2}
  a0 := a31{0 : 1}
  if (x1 < x2 ∧ (true ∨ false)) ∧ ¬(x1 = x2) then
    skip
    skip
  else
    while false do
      if true then
        skip
      else
        skip
  for x4 ← 1 to x31 do
    x0 := -33554432
precondition
  (empty)
postcondition
  (empty)
END
}

show_members() {
    set -- 32:7 9:1 2:31 11:0 8:0 2:1 1:0 10:0 8:1 2:2 1:1 9:1 16:1 9:0 8:0 2:1 2:2 12:0 11:0 9:0 9:1 10:0 9:1 9:1 9:1 17:0 \
        9:1 18:0 16:1 2:1 1:33554431 9:1 12:0 9:0
    certificate 24:0 "$@" "$@" 33:10 > sets
    lines 0 --show sets << 'END'
sets: accepted 1
program
  skip
precondition
  true ⇒ x31
  x1 = 0 ∨ (x2 < 1 ∧ true) ⇒ a1
  false ⇒ (x1 = x2)
  ¬(false ∨ true) ⇒ (true ∧ true)
  true ⇒ Z
  true ⇒ a1{x1 : 33554431}
  true ⇒ (¬(false))
postcondition
  true ⇒ x31
  x1 = 0 ∨ (x2 < 1 ∧ true) ⇒ a1
  false ⇒ (x1 = x2)
  ¬(false ∨ true) ⇒ (true ∧ true)
  true ⇒ Z
  true ⇒ a1{x1 : 33554431}
  true ⇒ (¬(false))
END
}

# the procedures come first, each with its contract: a call means nothing without the body
show_procedures() {
    certificate 62:2 27:0 2:1 32:1 9:1 2:1 32:1 9:1 2:0 33:3 25:0 38:0 24:0 32:0 32:0 33:10 \
        29:0 9:1 38:1 24:0 32:1 9:1 2:1 32:1 9:1 2:1 33:11 35:29 > procedures
    lines 0 --show procedures << 'END'
procedures: accepted 4
procedure 0
  x0 := x1
precondition of procedure 0
  true ⇒ x1
postcondition of procedure 0
  true ⇒ x0
procedure 1
  call procedure 0
  skip
precondition of procedure 1
  (empty)
postcondition of procedure 1
  (empty)
program
  if true then
    call procedure 1
  else
    skip
precondition
  true ⇒ x1
postcondition
  true ⇒ x1
END
}

# with other files and options: nothing is shown of a certificate that is refused or differs
show_others() {
    words 24:0 > skip
    lines 1 --show --program skip copy rule good << 'END'
copy:1: differs: word 0 of the program is 27:0, ordered is 24:0
rule:9: refused 8: a rule's condition fails; at word 9: 9:1 2:0 [33:3]
good: accepted 1
program
  skip
precondition
  (empty)
postcondition
  (empty)
END
    full_device --show good
}

show_cases() {
    program=flowgate
    show_commands
    show_members
    show_procedures
    show_others
}

# the accepted rows of tests/rows.tsv against the second implementation's viewer, where it was built
all_shown() {
    viewer=$root/target/tools/flowview
    if [ ! -x "$viewer" ]; then
        echo "flowgate/test: skipped: --show against flowview (./tools builds it)"
        return
    fi
    program=flowgate
    count=0
    for file in rows/*; do
        $run --show "$file" > got || continue
        count=$((count + 1))
        "$viewer" --parts "$file" > due
        sed 1d got > got-parts
        sed 1d due | cmp - got-parts || wrong "flowgate --show: not as flowview --parts for $file"
    done
    tried "$count"
    [ "$count" -ge 300 ] || wrong "flowgate --show: $count rows are accepted"
}
