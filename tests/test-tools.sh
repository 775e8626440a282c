#!/usr/bin/env bash
# tools/ and tests/refused say so if the toolchain isn't one that they know, before they load any part of it. `make
# check` proves exactly what isn't proved as it is, lowest first: over a small repository, and an rt that only notes
# where it checks. `make demo` takes the proved program, or keeps the one that `rt try` builds. The gate counts its
# edits also if they are all judged before rt ci ends.
. "$(dirname "$0")/expect.sh"
cd "$(dirname "$0")/.." || exit
# it spares parallel.py the toolchain, and so would let the whole gate run here
unset RT_JOBS

new_folder
tools=$PWD/tools
real=$(realpath "$(command -v rt)")

# another version, one that fails, and none at all
mkdir "$folder/other" "$folder/failing" "$folder/none"
printf '#!/bin/sh\n[ "$*" = version ] && echo rattle-kit-12a logic 0\n' > "$folder/other/rt"
printf '#!/bin/sh\n%s version\nexit 1\n' "$real" > "$folder/failing/rt"
chmod 755 "$folder"/*/rt
python=$(python3 -c 'import sys; print(sys.executable)')
for program in "tools/build.py jc_cli" "tools/check.py --list" "tests/refused --list" tests/refused/parallel.py; do
    # shellcheck disable=SC2086 # its words
    told=$(PATH=$folder/other "$python" -ESB $program 2>&1)
    status=$?
    wanted="'$folder/other/rt version' says 'rattle-kit-12a logic 0', and wanted is 'rattle-kit-"
    [[ $status -eq 1 && $told == "$wanted"* ]] ||
        differs "$program, with another toolchain: $told"
done
expect 1 "" "~*'$folder/failing/rt version' says 'rattle-kit-*" \
    env PATH="$folder/failing:$PATH" "$python" -ESB tests/refused/parallel.py
expect 1 "" "~there is no rt on the PATH: *" env PATH="$folder/none" "$python" -ESB tests/refused/parallel.py
expect 1 "0 passed, 1 failed" "~*'rattle-kit-12a logic 0'*" env PATH="$folder/other:$PATH" tests/run.sh

# a gate whose edits are all judged while rt ci still runs, with one script
gate=$folder/gate
mkdir -p "$gate/tests/refused" "$gate/crates/jc_cli/out" "$folder/slow"
cp tests/run.sh "$gate/tests/"
echo 'print(1)' > "$gate/tests/refused/parallel.py"
echo 'print("2 passed, 0 failed")' > "$gate/tests/refused/__main__.py"
echo 'echo 4 passed, 0 failed' > "$gate/tests/python.sh"
printf '#!/bin/sh\necho begun\nsleep 2\necho goes on\nsleep 2\necho 3 passed, 0 failed\n' > "$folder/slow/rt"
for program in "$gate/tests/test-nothing.sh" "$gate/crates/jc_cli/out/jc_cli"; do
    echo '#!/bin/sh' > "$program"
done
chmod 755 "$folder/slow/rt" "$gate/tests/test-nothing.sh" "$gate/crates/jc_cli/out/jc_cli"
expect 0 "~*10 passed, 0 failed" "" env PATH="$folder/slow:$PATH" "$gate/tests/run.sh"

# a folder of pytest's counts as pytest says, and once for a status that this doesn't explain; what fails is tried twice
if /usr/bin/python3 -c 'import pytest' 2> /dev/null; then
    mkdir -p "$folder/fails" "$folder/broken"
    cat > "$folder/fails/test_it.py" << END
def test_a():
    pass
def test_b():
    assert 0, "7 failed"
def test_c():
    with open("$folder/tries", "a+") as tries:
        print(file=tries)
        assert tries.tell() > 1
END
    echo 'import nothing' > "$folder/broken/conftest.py"
    expect 1 "~*failed once: *::test_c - *FAILED: $folder/broken: status 4"$'\n'"2 passed, 2 failed" "~ImportError*" \
        env PROGRAM="$real" bash tests/python.sh "$folder/fails" "$folder/broken"
fi

# which libraries are built at one time, with how many processors and at what priority: `a` is what the longest chain
# waits for, `lone` is not; `large` takes the memory of two jobs; what stands on one that isn't built is left out
"$python" -ESB - "$tools" > "$folder/lanes" << 'END'
import os, sys, time
sys.path.append(sys.argv[1])
from lanes import Library, build_all

def told(libraries, processors):
    begun = []
    def build(name, jobs):
        begun.append(f"{name}:{jobs}:{os.getpriority(os.PRIO_PROCESS, 0)}")
        time.sleep(0.2 if name == "a" else 0.4)
        return name != "bad"
    print(build_all(libraries, build, processors, 8.0), *begun)

lone, a, b = Library("lone", (), 5, 1), Library("a", (), 100, 1), Library("b", ("a",), 90, 1)
beside, large = Library("beside", ("a",), 80, 1), Library("large", ("b", "beside"), 50, 5)
os.setpriority(os.PRIO_PROCESS, 0, 1)
told([lone, a, b, beside, large], 4)
told([lone, a, b], 1)
told([Library("bad", (), 9, 1), Library("above", ("bad",), 1, 1), lone], 2)
told([], 4)
END
cmp -s "$folder/lanes" - << 'END' || differs "lanes: $(cat "$folder/lanes")"
True a:4:1 lone:1:5 b:4:1 beside:4:1 large:2:1
True a:1:1 b:1:1 lone:1:1
False bad:2:1 lone:1:5
True
END

# a repository of three crates, and an rt that notes what it checks: a crate that has a file `refused` isn't proved, and
# one with a file `late` changes meanwhile
mkdir "$folder/rt" "$folder/tree" "$folder/tree/crates"
cat > "$folder/rt/rt" << END
#!$python
import importlib.machinery, importlib.util, os, sys
if __name__ == "__main__":
    if sys.argv[1] == "try":
        os.execv("$folder/try", ["$folder/try", *sys.argv[2:]])
    if sys.argv[1:] != ["check"]:
        os.execv("$real", ["$real", *sys.argv[1:]])
    with open("$folder/checked", "a") as it:
        it.write(os.path.basename(os.getcwd()) + "\\n")
    if os.path.exists("late"):
        open("src/late.rt", "a").write("x")
    sys.exit(os.path.exists("refused"))
loader = importlib.machinery.SourceFileLoader("real", "$real")
module = importlib.util.module_from_spec(importlib.util.spec_from_loader("real", loader))
loader.exec_module(module)
rtlib = module.rtlib
END
chmod 755 "$folder/rt/rt"
export PATH=$folder/rt:$PATH
cd "$folder/tree" || exit
for name in top low mid aside; do
    mkdir -p "crates/$name/src"
    echo "//! $name" > "crates/$name/src/lib.rt"
done
printf '%s\n' '# the highest first' 'top: mid' 'mid: low' 'aside:' 'low:' > crates.txt

# checks STATUS CRATES: what a check says first, and which crates it went into
checks() {
    local status=$1 crates=$2 got
    shift 2
    rm -f "$folder/checked"
    "$python" -ESB "$tools/check.py" "$@" > "$folder/said" 2>&1
    got=$?
    [[ $got -eq $status ]] || differs "status $got, not $status: $(cat "$folder/said")"
    [[ $(cat "$folder/checked" 2> /dev/null | xargs) == "$crates" ]] ||
        differs "checked $(cat "$folder/checked" 2> /dev/null | xargs), not $crates: $(cat "$folder/said")"
}

checks 0 "aside low mid top"
checks 0 ""
grep -qx '0 of 4 crates: nothing to prove' "$folder/said" || differs "nothing to prove: $(cat "$folder/said")"
echo "// changed" >> crates/mid/src/lib.rt
checks 0 "" --list
[[ $(xargs < "$folder/said") == "mid top" ]] || differs "the list: $(cat "$folder/said")"
checks 0 "mid top"

# one that isn't proved: nothing above it is tried, and the next check begins with it
mkdir crates/low/specs
echo "-- new" > crates/low/specs/New.antt
touch crates/low/refused
checks 1 "low"
grep -qx 'low is NOT PROVED; what stands on it wasn.t looked at' "$folder/said" || differs "$(cat "$folder/said")"
checks 1 "low"
rm crates/low/refused
checks 0 "low mid top"
rm -r crates/low/specs
touch crates/mid/late
checks 0 "low mid top"
rm crates/mid/late
checks 0 "mid"

# other libraries
sed -i 's/^aside:/aside: low/' crates.txt
checks 0 "aside"
rm -r build

# by git: what has changed since a revision, new files too, and what stands on it
git init -q . 2> /dev/null
git_here() {
    git -c user.name=t -c user.email=t@example.com -c commit.gpgsign=false "$@"
}
printf '/build/\n' > .gitignore
git_here add -A
git_here commit -q -m one
checks 0 "" --since HEAD
echo "// changed" >> crates/mid/src/lib.rt
checks 0 "mid top" --since HEAD
checks 0 "" --since HEAD
rm -r build
git_here commit -q -a -m two
mkdir crates/aside/proofs
echo "-- new" > crates/aside/proofs/New.antt
sed -i 's/^top: mid/top: low mid/' crates.txt
checks 0 "aside top" --since HEAD
checks 1 "" --since nothing
grep -q '^git diff .* nothing .*: fatal: bad revision' "$folder/said" || differs "no revision: $(cat "$folder/said")"

# a library that rt has built is proved, without a note
rm -r build
mkdir -p crates/low/out/rlib/low.rlib
"$python" -ESB - "$tools" > crates/low/out/rlib/stamp << 'END'
import os, sys
sys.path.append(sys.argv[1])
import kit
print(next(it for it in kit.rt().rtlib.crates_below(os.getcwd()) if it.name == "low").stamp(), end="")
END
checks 0 "aside mid top"
# a program before its proofs: the module that rt try makes is taken once it is whole, and compiled; the proved one is
# taken if it is newer than all sources
cat > "$folder/module" << 'END'
target triple = "x86_64-unknown-linux-gnu"
@said = private constant [6 x i8] c"tried\00"
declare i32 @puts(ptr)
define i32 @main() {
    %done = call i32 @puts(ptr @said)
    ret i32 0
}
END
head -c 8192 /dev/zero | tr '\0' ';' >> "$folder/module"
cat > "$folder/try" << END
#!/bin/bash
echo "\$*" >> "$folder/tried"
[[ ! -e nothing ]] || exit 0
[[ ! -e changing ]] || { sleep 0.1; touch src/main.rt; }
[[ ! -e $folder/tree/crates/shown/failing ]] || { echo "it fails"; exit 3; }
mkdir -p "\$TMPDIR/native/0" "\$TMPDIR/native/1"
cd "\$TMPDIR/native" || exit
touch 0/module.bc 0/module.o
head -c 5000 "$folder/module" > 1/module.bc
sleep 0.2
cp "$folder/module" 1/module.bc
touch 1/module.o.tmp
exec sleep 60
END
chmod 755 "$folder/try"
mkdir -p crates/shown/src crates/shown/out
echo "//! shown" > crates/shown/src/main.rt
find crates crates.txt -exec touch -d '1 minute ago' {} +
trial() {
    "$python" -ESB "$tools/trial.py" "$@"
}
told="shown is built before its proofs, which takes some 5 minutes; make proves it"
# nothing is built yet, so it has to ask the toolchain
expect 1 "" "~'$folder/other/rt version' says 'rattle-kit-12a logic 0', and wanted is *" \
    env PATH="$folder/other:$PATH" "$python" -ESB "$tools/trial.py" shown
expect 0 "build/trial/shown" "$told" trial shown
expect 0 "tried" "" build/trial/shown
expect 0 "build/trial/shown" "" trial shown
[[ $(cat "$folder/tried") == "-- --version" ]] || differs "tried: $(cat "$folder/tried")"

# of two that are newer than all sources the proved one; it needs no rt
install -m 755 /dev/null crates/shown/out/shown
expect 0 "crates/shown/out/shown" "" env PATH="$folder/none" "$python" -ESB "$tools/trial.py" shown
for newer in crates/low/src/lib.rt crates.txt; do
    touch -d '+1 minute' "$newer"
    expect 0 "build/trial/shown" "$told" trial shown
    touch -d '1 minute ago' "$newer"
done
[[ $(ls build/trial) == shown ]] || differs "left in build/trial: $(ls build/trial)"
rm crates/shown/out/shown

# one whose source changes meanwhile is old at once; one that fails, or isn't there, leaves the last one
touch crates/shown/changing
touch crates/shown/src/main.rt
expect 0 "build/trial/shown" "$told" trial shown
expect 0 "build/trial/shown" "$told" trial shown
rm crates/shown/changing
touch crates/shown/failing
expect 1 "" "~$told
rt try made no program, and said:
it fails*" trial shown
rm crates/shown/failing
touch crates/shown/nothing
expect 1 "" "~$told
rt try made no program, and said:*" trial shown
[[ $(ls build/trial) == shown ]] || differs "left in build/trial: $(ls build/trial)"
expect 0 "tried" "" build/trial/shown
expect 1 "" "there is no program low: crates/low/src/main.rt isn't there" trial low
finish
