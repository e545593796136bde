#!/usr/bin/env bash
# commands.sh: tries the commands around the prover, in a small repository whose rt only says what rt says: the page of
# plain make, the lines of progress, the log, what is said without rt or with another kit, that no two commands prove at
# once, and that the gate fails if any part of it does.
set -euo pipefail
cd "$(dirname "$0")/.."
work=$(mktemp -d)
trap 'rm -rf "$work"' EXIT
mkdir -p "$work"/{bin,repository/.ci,repository/crates/{two/must-fail,c_readings_c,c_recordings_c,list_times}}
cp -r Makefile tools kit-version include "$work/repository"
cp .ci/run "$work/gate"
cd "$work/repository"
touch crates/two/must-fail/{a,b}.edit
printf '%s\n' '# crates' 'one:' 'two: one' 'c_readings_c staticlib: two one' \
    'c_recordings_c staticlib: one' 'list_times: two' 'rest: one' > crates.txt

cat > "$work/bin/rt" << 'END'
#!/usr/bin/env bash
[ "$1" != version ] || { cat "$KIT"; exit; }
mkdir "$RUNNING" || { echo "two commands prove at once"; exit 1; }
sleep 0.3
folder=$(basename "$PWD")
prover() { # NAME
    echo "fn $1::first: proved"
    echo "a line of the prover's"
    echo "library std: modules loaded=3 checked=0"
}
status=0
case "$folder $*" in
"c_readings_c lib" | "c_recordings_c lib" | "list_times run -- --version")
    echo "rt: two: begins with what a check kept in /a/copy/crates/two"
    for name in one "$folder"; do
        echo "rt: chose --jobs 2 for $name"
        prover "$name"
        echo "crate $name: modules loaded=5 checked=1"
        echo "logic=proved functions=1 sum=0 native=nat,char,string"
    done
    mkdir -p out
    if [ "$1" = lib ]; then
        rm -f "out/lib$folder.a"
        ar rc "out/lib$folder.a"
    else
        printf '#!/bin/sh\necho listed\n' > out/list_times
        chmod +x out/list_times
        echo "rt: running out/list_times; to give it other input, run that file yourself"
        echo "list_times 1.2.3"
    fi
    ;;
"repository ci")
    mkdir -p crates/list_times/out
    printf '#!/bin/sh\necho listed\n' > crates/list_times/out/list_times
    chmod +x crates/list_times/out/list_times
    echo "== one"
    prover one
    echo "logic=proved functions=1 sum=0 native=nat,char,string"
    echo "rt: one proved"
    echo "rt: two is kept: an earlier run on this machine proved the same files over the same libraries"
    echo "rt: two: trying its must-fail edits (1)"
    for name in list_times c_readings_c c_recordings_c rest; do
        echo "== $name"
        prover "$name"
        case "$name ${VERDICT:-}" in
        "rest NOT PROVED") echo "rt: $name NOT PROVED"; status=1 ;;
        *) echo "rt: $name proved" ;;
        esac
    done
    echo "rt: two: 1 of its 2 must-fail edits were tried by an earlier run on this machine, and nothing that they stand on" \
        "has changed"
    echo "rt: must-fail two/a.edit: refused, as it must be: note: src/lib.rt:1:1: it is not proved that"
    if [ "${VERDICT:-}" = bad ]; then
        echo "rt: must-fail two/b.edit: BAD EDIT: an 'old:' text is in src/lib.rt 0 times, and not once"
    else
        echo "rt: must-fail two/b.edit: refused, as it must be"
    fi
    echo "rt: list_times ran, and wrote what its file stdout has"
    echo "rt: list_times ran (built by Rattle's own compiler), and wrote what its file stdout has"
    case "${VERDICT:-}" in
    "") echo "rt: ok; handles allowed: none; must-fail edits: 2 refused; done in this run: 5 of the 6 proofs" ;;
    bad)
        echo "rt: note: bad must-fail edits, as told above: 1. They fail nothing here"
        echo "rt: ok; handles allowed: none; must-fail edits: 1 refused, 1 bad; done in this run: 5 of the 6 proofs"
        ;;
    *) echo "rt: FAILED: rest" ;;
    esac
    echo "7 passed, $status failed"
    ;;
*)
    echo "rt: this rt knows no '$*' in $folder"
    status=2
    ;;
esac
rmdir "$RUNNING"
exit "$status"
END
chmod +x "$work/bin/rt"
cat > .ci/run << 'END'
rt ci
status=$?
echo "gate: rt ci ended with status $status"
echo 'rules kept'
[ "$status" -ne 0 ] || make library
echo "7 passed, $status failed"
exit "$status"
END
path=$PATH
export KIT="$PWD/kit-version" RUNNING="$work/running" PATH="$work/bin:$PATH"
unset MAKEFLAGS MAKELEVEL PROVING VERDICT VECTORS OUTSIDE

# Two commands that wait for each other are a failure too.
make() {
    timeout 60 make "$@"
}

# The lines as they come, but for the seconds.
expect() { # NAME WANTED GOT
    diff <(printf '%s\n' "$2") <(printf '%s\n' "$3" | sed -E 's/\([0-9]+ s so far\)$/(N s so far)/') ||
        { echo "$1: the lines with > were written"; exit 1; }
}
first='proved 1 of 6: one (N s so far)
must-fail edits are tried: two, 1 (N s so far)
proved 3 of 6: list_times (N s so far)
proved 4 of 6: c_readings_c (N s so far)
proved 5 of 6: c_recordings_c (N s so far)'
unchanged='unchanged since they were proved: 1 of 6'
edits="must-fail 1 of 1: two, 2 refused, 1 in an earlier run
ran: list_times
ran: list_times (built by Rattle's own compiler)"
library='proved 1 of 3: one (N s so far)
proved 2 of 3: c_readings_c (N s so far)
unchanged since they were proved: 1 of 3
proved 1 of 2: one (N s so far)
proved 2 of 2: c_recordings_c (N s so far)
built: target/staticlib/libradio_clock.a'

expect "plain make" "$(sed -n '/^#/!q; s/^# \{0,1\}//p' Makefile)" "$(make)"
for target in test list library collector logger install uninstall dist outside c-test fuzz bench clean; do
    make | grep -q "^make $target " || { echo "plain make does not tell of make $target"; exit 1; }
done

expect "make test" "$first
proved 6 of 6: rest (N s so far)
$unchanged
$edits
ok; handles allowed: none; must-fail edits: 2 refused; done in this run: 5 of the 6 proofs
rt ci ended with status 0
rules kept
$library
7 passed, 0 failed" "$(make test)"
grep -q "a line of the prover's" target/prove.log || { echo "target/prove.log lacks the prover's lines"; exit 1; }

status=0
written=$(VERDICT='NOT PROVED' make test 2> /dev/null) || status=$?
expect "make test that fails" "2
$first
$unchanged
rest NOT PROVED
$edits
FAILED: rest
rt ci ended with status 1
rules kept
this failed: bash .ci/run. All that it wrote is in target/prove.log
7 passed, 1 failed" "$status
$written"

make clean > /dev/null
[ ! -e target ] || { echo "make clean leaves target"; exit 1; }
make -j4 library list > "$work/parallel" 2>&1 || { cat "$work/parallel"; exit 1; }
for line in 'built: target/staticlib/libradio_clock.a' 'list_times 1.2.3' 'built: target/bin/list_times' listed \
    'waiting for another command'; do
    grep -q "^$line" "$work/parallel" || { echo "make -j4 library list does not say: $line"; exit 1; }
done

make clean > /dev/null
echo 'another kit' > "$work/kit"
status=0
written=$(KIT="$work/kit" make library 2>&1) || status=$?
wanted="'$(cat kit-version)'"
expect "another kit" "2 rt is of another kit, 'another kit': proving needs $wanted, as the file kit-version says" \
    "$status ${written%%$'\n'*}"

without_rt=$(IFS=:; for folder in $path; do [ -x "$folder/rt" ] || printf '%s:' "$folder"; done)
status=0
written=$(PATH=${without_rt%:} make list 2>&1) || status=$?
expect "no rt" "2 rt is missing: proving needs the Rattle kit $wanted, with its folder bin on the PATH" \
    "$status ${written%%$'\n'*}"

# The gate itself, over vectors and tests that pass or fail as they are told.
mkdir -p tests crates/vectors target
cp "$work/gate" .ci/run
touch target/old
cat > tests/vectors.py << 'END'
import os
import sys
print(sys.argv[1] + os.environ.get("VECTORS", ""))
END
echo stdin > crates/vectors/stdin
echo stdout > crates/vectors/stdout
printf '%s\n' 'outside:' > Makefile
printf '\t%s\n' '@test ! -e target/old' '@echo tested' '@test -z "$$OUTSIDE"' >> Makefile
gate() { # STATUS LAST-LINE
    status=0
    bash .ci/run > "$work/said" 2>&1 || status=$?
    expect "the gate with VERDICT=${VERDICT:-} VECTORS=${VECTORS:-} OUTSIDE=${OUTSIDE:-}" "$1 $2" \
        "$status $(tail -n 1 "$work/said")"
}
gate 0 '7 passed, 0 failed'
grep -qx tested "$work/said" || { echo "the gate does not run make outside"; exit 1; }
[ -x target/bin/list_times ] || { echo "the gate does not try the program that rt ci built"; exit 1; }
VERDICT='NOT PROVED' gate 1 '7 passed, 1 failed'
VERDICT=bad gate 1 '7 passed, 1 failed'
VECTORS=x gate 1 '7 passed, 2 failed'
OUTSIDE=x gate 1 '7 passed, 1 failed'
VERDICT=bad VECTORS=x OUTSIDE=x gate 1 '7 passed, 4 failed'
KIT="$work/kit" gate 2 '0 passed, 1 failed'
echo "the commands around the prover say what they must, and prove one at a time"
