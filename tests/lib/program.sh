# Read by the scripts of tests/ and bench/, with `top` set: sets `program` to the program that was
# built last, by ./build or rt ci, and ends where there is none or a source is newer. PROGRAM names
# another program, by its whole path.
. "$top/tests/lib/built.sh"
program=${PROGRAM:-$(built cityfund)}
if [ ! -x "$program" ]; then
    echo "there is no program: run ./build" >&2
    exit 1
elif [ -z "$PROGRAM" ] && [ -n "$(find "$top/crates" "$top/crates.txt" -name out -prune -o \
    \( -name '*.rt' -o -name '*.antt' -o -name crates.txt \) -newer "$program" -print | head -n 1)" ]; then
    echo "a source is newer than the program: run ./build" >&2
    exit 1
fi
