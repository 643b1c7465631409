# Read by the tests of what `books` lists, with `top` set. It sets `books` to the program that was
# built last (BOOKS names another one, by its whole path) and `scratch` to a folder that goes when
# the script ends. It ends the script where there is no program.
. "$top/tests/lib/built.sh"
books=${BOOKS:-$(built books)}
if [ ! -x "$books" ]; then
    echo "there is no program books: run ./build" >&2
    exit 1
fi
PYTHONDONTWRITEBYTECODE=1
export PYTHONDONTWRITEBYTECODE
[ -w /dev/shm ] && TMPDIR=/dev/shm && export TMPDIR # where syncs cost nothing
scratch=$(mktemp -d) || exit 1
trap 'rm -rf "$scratch"' EXIT
. "$top/tests/lib/expect.sh"
tried=$books folder=$scratch

# chart_of TALK: the chart of a talk of examples/.
chart_of() {
    case $1 in
    examples/*/*) echo "$(dirname "$1")/chart.toml" ;;
    *) echo examples/rivertown/chart.toml ;;
    esac
}

# filter SCRIPT WORDS..: makes $scratch/changed, which is `books` with the list of these words sent
# through sed with this script, and tries that the script changes that list.
filter() {
    script=$1
    shift
    cat > "$scratch/changed" << PROGRAM
#!/bin/sh
case "\$*" in
"$*") "$books" "\$@" | sed '$script' ;;
*) exec "$books" "\$@" ;;
esac
PROGRAM
    chmod +x "$scratch/changed"
    (cd "$scratch" && "$books" "$@" > was && sed "$script" was > is && ! cmp -s was is)
    verdict "$script changes $*" $?
}
