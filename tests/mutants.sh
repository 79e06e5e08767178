#!/bin/sh
# tests/mutants/run hands rt the edits that it is asked for and no other, passes on what rt says and its status, keeps it by
# edits where it is asked to, and leaves the tree as it is: it is run on a small tree with a stand-in for rt that prints
# the edits which it finds, and refuses one of them.
set -u
script=mutants.sh
. tests/counting
tree=$work/tree
mkdir -p "$tree/bin" "$tree/crates/one/must-fail" "$tree/crates/two/must-fail" "$tree/tests/mutants/one" \
    "$tree/tests/mutants/two" || exit 1
cp tests/mutants/run "$tree/tests/mutants"
printf 'one:\ntwo: one\n' >"$tree/crates.txt"
mkdir "$tree/crates/one/src" "$tree/crates/one/out" "$tree/crates/two/src" || exit 1
touch "$tree/crates/one/src/lib.rt" "$tree/crates/one/out/kept" "$tree/crates/two/src/lib.rt"
touch "$tree/crates/one/must-fail/gate.edit" "$tree/crates/two/must-fail/gate.edit"
touch "$tree/tests/mutants/one/first.edit" "$tree/tests/mutants/one/second.edit" "$tree/tests/mutants/two/third.edit"
cat >"$tree/bin/rt" <<'EOF'
#!/bin/sh
[ -f crates.txt ] && [ -f crates/one/src/lib.rt ] && [ -f crates/two/src/lib.rt ] && [ ! -e crates/one/out ] || exit 9
echo "$@" $(ls crates/*/must-fail/*.edit)
[ -f crates/one/must-fail/second.edit ] || exit 1
echo 'rt: must-fail one/second.edit: BAD EDIT: the first lines of what it said:'
echo 'error: no such name'
echo 'rt: one more line' >&2
EOF
chmod +x "$tree/bin/rt"
find "$tree" | sort >"$work/before"

# tries STATUS LINE ARGUMENT..: what the script ends with and prints for these arguments.
tries() {
    status=$1
    line=$2
    shift 2
    out=$(PATH="$tree/bin:$PATH" TMPDIR="$work" "$tree/tests/mutants/run" "$@" 2>&1)
    [ $? -eq "$status" ] && [ "$out" = "$line" ]
    ended $? "run $*: not '$line' but '$out'"
}

one='crates/one/must-fail'
said='rt: must-fail one/second.edit: BAD EDIT: the first lines of what it said:
error: no such name'
tries 0 "must-fail one $one/first.edit $one/second.edit
$said
rt: one more line" one
tries 0 "must-fail one two $one/first.edit $one/second.edit crates/two/must-fail/third.edit
$said
rt: one more line" one two
tries 0 "must-fail one $one/second.edit
$said
rt: one more line" --logs "$work/some logs" one second
printf '%s\n' "$said" | cmp - "$work/some logs/one/second.log" && [ "$(ls "$work/some logs/one")" = second.log ]
ended $? 'what rt said of an edit is not in its log, or there is another log'
tries 1 "must-fail one $one/gate.edit" one gate
tries 2 'tests/mutants/run: there is no edit one/third' one third
tries 2 'tests/mutants/run: three has no mutants; without an argument this lists all' three
tries 0 'one:
  first
  second
two:
  third'
find "$tree" | sort | cmp -s - "$work/before"
ended $? 'the tree is not as it was'
finish
