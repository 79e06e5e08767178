#!/bin/sh
# Every public function takes every input, and says what it gives: none has a `requires`, and each has an `ensures`, but
# for the methods of prose that collect text and write it. (What prints by `fmt` is no public function of its own.)
# (What is for its own crate alone is pub(crate).) The check itself is tried on functions that it must refuse.
set -u
script=public.sh
. tests/counting

# faults FOLDER: the public functions below a folder of crates that are not so, and what is wrong with each.
faults() {
    find "$1" -path "$1/*/out" -prune -o -type f -path '*/src/*.rt' -exec awk '
        function closed() {
            if (!open) return
            if (requires) print at ": " name " has a requires"
            if (name !~ /^prose::(new|write_bytes|end)$/) {
                if (!ensures) print at ": " name " has no ensures"
            } else if (head !~ /\(\) -> [A-Z][a-z]*$|\((&mut |mut )?self(, bytes: &\[u8\])?\)$/) {
                print at ": " name " does more than print"
            }
            open = 0
        }
        FNR == 1 { closed() }
        /^[ \t]*(pub |pub\([a-z]*\) )?(extern "C" )?fn / { closed() }
        /^[ \t]*pub (extern "C" )?fn / {
            open = 1; requires = 0; ensures = 0; head = ""; at = FILENAME ":" FNR
            name = $0
            sub(/.*fn /, "", name)
            sub(/[^a-z0-9_].*/, "", name)
            n = split(FILENAME, part, "/")
            name = part[n - 2] "::" name
        }
        open && /^[ \t]*requires/ { requires = 1 }
        open && /^[ \t]*ensures/ { ensures = 1 }
        open && !ensures && !requires { head = head $0; sub(/[ \t]*\{[ \t]*$/, "", head) }
        open && /\{[ \t]*$/ { closed() }
        END { closed() }
    ' {} +
}

# refuses CRATE FAULT TEXT: what is found in a crate with this text, "" for none.
refuses() {
    mkdir -p "$work/crates/$1/src" || exit 1
    printf '%b' "$3" >"$work/crates/$1/src/lib.rt"
    found=$(faults "$work/crates" | sed 's/.*: //')
    rm -r "$work/crates"
    [ "$found" = "$2" ]
    ended $? "found '$found', not '$2', in: $3"
}

promise='    ensures { result ≡ x }\n'
refuses one '' "pub fn f(x: u8) -> u8\n$promise{\n    x\n}\n"
refuses one 'one::f has no ensures' 'pub fn f(x: u8) -> u8 {\n    x\n}\n'
refuses one 'one::f has no ensures' 'pub fn f(x: u8) -> u8 { x }\n'"fn g(x: u8) -> u8\n$promise{\n    x\n}\n"
refuses one 'one::f has no ensures' 'pub extern "C" fn f(\n    x: &mut [u8],\n) {\n    x[0] = 0;\n}\n'
refuses one 'one::f has a requires' "pub fn f(x: u8) -> u8\n    requires { x ≤ 1 }\n$promise{\n    x\n}\n"
refuses one 'one::say_it has no ensures' 'pub fn say_it(x: u8) {\n    say(x);\n}\n'
refuses one '' 'pub(crate) fn f(x: u8) -> u8 {\n    x\n}\n'
refuses prose '' 'pub fn end(mut self) {\n    self.flush();\n}\n'
refuses prose '' 'pub fn write_bytes(&mut self, bytes: &[u8]) {\n    self.put(bytes);\n}\n'
refuses prose 'prose::end does more than print' 'pub fn end(mut self) -> u8 {\n    1\n}\n'
refuses prose 'prose::write_bytes does more than print' 'pub fn write_bytes(&mut self, bytes: &mut [u8]) {\n    bytes[0] = 0;\n}\n'
refuses prose 'prose::say has no ensures' 'pub fn say(&mut self) {\n    self.flush();\n}\n'

found=$(faults crates)
[ -z "$found" ]
ended $? "public functions that break their rule:
$found"
finish
