#!/usr/bin/env bash
# docs/PROOFS.md, UNPROVED.md and FAULTS.md name functions, clauses and files that are in the sources, the README's list
# names promises of PROOFS, and a page with a wrong name is refused. What `make contracts` prints is what sources say.
. "$(dirname "$0")/expect.sh"

new_folder
expect 0 "" "" python3 -B tests/proofs_page.py

# refuses PAGE EDIT MISTAKES: with this edit of the page, it has these mistakes
refuses() {
    sed "$2" "$1" > "$folder/page"
    expect 1 "" "$3" python3 -B tests/proofs_page.py "$folder/page"
}

refuses docs/PROOFS.md 's/of jc_runs | `begins`, /of jc_runs | `began`, /' "~*runs_keep of jc_runs has no clause began"
refuses docs/PROOFS.md 's/^| Once | `runs_keep` of jc_runs/| Once | `runs_keep` of jc_world/' \
    $'jc_world has no runs_keep\njc_world has no function runs_keep'
refuses docs/PROOFS.md 's/`fronts_of_streams` of/`fronts_of_stream` of/' \
    $'there is no fronts_of_stream\njc_export has no fronts_of_stream\njc_export has no function fronts_of_stream'
refuses docs/PROOFS.md 's/`World::run`, `World::new` of jc_world |/`World::run`, `World::new` |/' \
    "~a row names no function of a crate and its clauses: | | \`World::run*"
refuses docs/PROOFS.md 's/`IsRun` in/`IsKept` in/' "there is no IsKept in jc_collect specs/Run.antt"
refuses docs/UNPROVED.md 's/`LeaveLagging` in/`LeavesLagging` in/' \
    $'there is no LeavesLagging\nthere is no LeavesLagging in jc_ledger specs/Lagging.antt'
refuses docs/UNPROVED.md 's/`TableKeeper::adopt`/`TableKeeper::adopts`/' "there is no TableKeeper::adopts"
refuses docs/UNPROVED.md 's,`tests/collect/turns.py`,`tests/collect/turn.py`,' "there is no tests/collect/turn.py"
refuses docs/FAULTS.md 's,collector/test_turns.py,collector/test_hostile.py,' \
    "there is no tests/collector/test_hostile.py"
refuses docs/PROOFS.md 's/^- \*\*Owners\*\*/- **Owned**/' "no row is about the promise 'Owned'"
refuses README.md 's/^- \*\*Owners\*\*/- **Owned**/' "'Owned' is no promise in docs/PROOFS.md"

# what is printed of a crate is what its sources say, and then what a theorem rests on
mkdir -p "$folder/tree/tools" "$folder/tree/crates/jc_small/"{src,specs} "$folder/tree/crates/jc_collect/"{src,specs}
cp tools/contracts.py "$folder/tree/tools/"
printf '%s\n' "jc_small: hex" "jc_collect: jc_small" > "$folder/tree/crates.txt"
cat > "$folder/tree/crates/jc_small/specs/Size.antt" << 'END'
-- Sizes. (own)

-- A size is less than a hundred. (own)
abbrev pub IsSize : ℕ → Type 0
END
echo "use Rattle.jc_small.specs.Size.{IsSize};" > "$folder/tree/crates/jc_collect/specs/Run.antt"
echo "//! Uploads." > "$folder/tree/crates/jc_collect/src/lib.rt"
cat > "$folder/tree/crates/jc_small/src/lib.rt" << 'END'
//! Small things.

mod size;

pub use size::size_of;
END
cat > "$folder/tree/crates/jc_small/src/size.rt" << 'END'
//! How large a thing is.

ghost use Rattle.jc_small.specs.Size.{IsSize};

/// The size of a thing.
pub fn size_of(thing: u64) -> u64
    requires { IsSize thing }
    // No thing is larger.
    ensures bound { IsSize result }
    ensures same { result ≡ thing }
{
    inner(thing)
}

/// Nobody sees this one.
fn inner(thing: u64) -> u64
    ensures { result ≡ thing }
{
    thing
}
END
cat > "$folder/wanted" << 'END'
## jc_small

Small things.

`size.rt`: How large a thing is.

- **`size_of`** (`bound`, `same`): The size of a thing.
__- *Asks*: `IsSize thing`, with `IsSize` in `specs/Size.antt` (A size is less than a hundred).
__- `bound`: No thing is larger. `IsSize`.

## jc_collect

Uploads.

## What a theorem rests on

- **`run` of jc_collect**: jc_collect: `Run`; jc_small: `Size`
- **`World::run` of jc_world**:
END
expect 0 "~# The contracts*$(sed 's/^__/  /' "$folder/wanted")" "" python3 -B "$folder/tree/tools/contracts.py"
finish
