#!/bin/sh
# The must-fail edits that the gate doesn't try, since each costs a proof of a large crate:
# tests/edits/CRATE/NAME.edit, of the form that docs/GATE.md tells.
#
#     tests/gate/edits.sh [CRATE..]    tries those of the named crates, or all, as the gate tries others:
#                                 rt must-fail, over a copy of the repository that has no other edits
#     tests/gate/edits.sh --apply      proves nothing: says which edit no longer fits its file. The gate
#                                 runs this
#
# The copy has the libraries that rt lib or rt check kept in crates/NAME/out; rt proves those that
# aren't there first, which for a high crate takes more than an hour.
cd "$(dirname "$0")/../.." || exit 1

if [ "$*" = --apply ]; then
    exec python3 - << 'PY'
import glob, os, re, sys


def fault(edit):
    """Why an edit can't be applied, if it can't. Each pair is applied to what the earlier ones made."""
    crate, path, old, texts, pairs = f"crates/{edit.split('/')[2]}", "", None, {}, 0
    for line in open(edit, encoding="utf-8").read().split("\n"):
        if line.startswith("file: "):
            path = line[len("file: "):].strip()
            if not re.match(r"(src|specs|proofs)/", path) or not os.path.isfile(f"{crate}/{path}"):
                return f"there is no file {crate}/{path}"
            texts.setdefault(path, open(f"{crate}/{path}", encoding="utf-8").read())
        elif line.startswith("old: "):
            old = line[len("old: "):]
        elif line.startswith("new:"):
            if not path or not old:
                return "a line 'new:' stands before any 'file:' or 'old:'"
            if texts[path].count(old) != 1:
                return f"its text stands {texts[path].count(old)} times in {crate}/{path}: {old.strip()}"
            texts[path] = texts[path].replace(old, line[len("new:"):].removeprefix(" "))
            old, pairs = None, pairs + 1
    if os.path.exists(f"{crate}/must-fail/{os.path.basename(edit)}"):
        return f"it stands in {crate}/must-fail too"
    return None if pairs else "it has no pair of 'old:' and 'new:'"


edits = sorted(glob.glob("tests/edits/*/*"))
faults = [(edit, why) for edit in edits for why in [fault(edit)] if why]
for edit, why in faults:
    print(f"edits: {edit}: {why}")
print(f"edits: {len(edits) - len(faults)} apply, {len(faults)} don't")
sys.exit(bool(faults))
PY
fi

[ $# -gt 0 ] || set -- $(ls tests/edits)
for crate in "$@"; do
    [ -d "tests/edits/$crate" ] || { echo "edits: there are none of $crate" >&2; exit 1; }
done
scratch=$(mktemp -d) || exit 1
trap 'rm -rf "$scratch"' EXIT
trap 'exit 1' HUP INT TERM
mkdir "$scratch/crates"
for name in crates.txt HANDLES; do
    cp "$name" "$scratch/" || exit 1
done
for crate in crates/*; do
    mkdir -p "$scratch/$crate/out"
    for part in "$crate"/*; do
        case ${part##*/} in out | must-fail) ;; *) cp -R "$part" "$scratch/$crate/" || exit 1 ;; esac
    done
    [ ! -d "$crate/out/rlib" ] || cp -R "$crate/out/rlib" "$scratch/$crate/out/" || exit 1
done
for crate in "$@"; do
    cp -R "tests/edits/$crate" "$scratch/crates/$crate/must-fail" || exit 1
done
# A kit whose rt keeps what it passed is asked to try them anew.
cd "$scratch" || exit 1
if rt help 2>&1 | grep -q -e --anew; then
    rt must-fail --anew "$@"
else
    rt must-fail "$@"
fi
