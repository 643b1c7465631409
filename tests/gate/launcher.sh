#!/bin/sh
# Tries ./build and ./cityfund with an rt and a program that are stubs. A build that fails, is stopped,
# is killed or meets a full disk leaves the old programs and says what happened; where nothing changed
# it proves nothing, and it takes over what the gate built of the same sources. The launcher builds
# nothing, what could be a journal isn't founded over, a link to a launcher does as it does, and what
# a user may not write is said.
cd "$(dirname "$0")/../.." || exit 1
scratch=$(mktemp -d) || exit 1
trap 'rm -rf "$scratch"' EXIT
city=$scratch/city
. tests/lib/expect.sh

# in_desk COMMAND..: runs the command in the folder of the journal, with the stub of rt on the path.
in_desk() {
    (cd "$scratch/desk" && PATH=$scratch/kit:$PATH TMPDIR=$scratch/room "$@" 2>&1 < /dev/null)
}

# expect NAME STATUS TEXT COMMAND..: TEXT is the last line of what the command says.
expect() {
    name=$1 wanted=$2 text=$3
    shift 3
    said=$(in_desk "$@")
    status=$?
    [ "$status" -eq "$wanted" ] && [ "$(echo "$said" | tail -n 1)" = "$text" ]
    verdict "$name: status $status: $said" $?
}

# fails NAME WHY [COMMAND..]: ./build, or the command, ends with 1, and says so.
fails() {
    name=$1 why=$2
    shift 2
    [ $# -gt 0 ] || set -- "$city/build"
    expect "$name" 1 "build: failed: $why; the programs of out/ are as they were" "$@"
}

# says NAME LINE COMMAND..: the line is among those that the command says.
says() {
    name=$1 line=$2
    shift 2
    in_desk "$@" > "$scratch/said"
    grep -qxF -e "$line" "$scratch/said"
    verdict "$name: $(cat "$scratch/said")" $?
}

# rt CI [RUN]: from now on `rt ci` is the shell's lines CI, and `rt run` RUN; each call is noted.
rt() {
    cat > "$scratch/kit/rt" << STUB
#!/bin/sh
echo "\$*" >> "$scratch/calls"
# built NAME PROGRAM: a crate that is proved, with the program that is built.
built() {
    mkdir -p "crates/\$1/out"
    cp "$scratch/\$2" "crates/\$1/out/\$1"
    printf '== %s\\nfn %s::main: proved\\nrt: %s proved\\n' "\$1" "\$1" "\$1"
}
both() {
    printf '== low\\nrt: low proved\\n'
    built books "\$1"
    built cityfund "\$1"
    printf 'rt: ok; handles allowed: none\\n3 passed, 0 failed\\n'
}
kept() {
    both "\$1" | sed 's/^rt: low proved\$/rt: low is kept: an earlier run proved the same/'
}
case \$1 in
version) echo "kit \$(cat "$scratch/kit/line")" ;;
ci) $1 ;;
run) ${2:-exit 1} ;;
esac
STUB
    chmod +x "$scratch/kit/rt"
    : > "$scratch/calls"
}

# program NAME: a program that says NAME and its words, and without words ends as the real one does.
program() {
    printf '#!/bin/sh\necho "%s $*"\n[ $# -gt 0 ] || exit 2\n' "$1" > "$scratch/$1"
    chmod +x "$scratch/$1"
}

# proved NAME WHETHER-IT-HOLDS: whether rt ci was called since the stub was made.
proved() {
    grep -qx ci "$scratch/calls"
    [ $? -eq "$2" ]
    verdict "$1" $?
}

mkdir -p "$scratch/kit" "$scratch/room" "$scratch/desk" "$city/crates/low/must-fail"
for name in cityfund books low cases; do
    mkdir -p "$city/crates/$name/src"
    : > "$city/crates/$name/src/main.rt"
done
: > "$city/crates/low/must-fail/an.edit"
# The builds of the stub need next to no room.
sed 's/^NEEDS = .*/NEEDS = 10_000_000/' build > "$city/build"
chmod +x "$city/build"
cp cityfund books "$city/"
printf '# The crates.\ncases: low\ncityfund: low std\nbooks: low\nlow:\n' > "$city/crates.txt"
echo 'Handles allowed: none.' > "$city/HANDLES"
echo 1 > "$scratch/kit/line"
program old
program new
none="there is no program yet: run $city/build"
newer="a source is newer than this program: $city/build makes a new one"
same="build: nothing changed since the last build: out/cityfund and out/books are of these sources"
log=$city/out/build.log

expect "no program" 1 "cityfund: $none" "$city/cityfund" desk
expect "no program of books" 1 "books: $none" "$city/books" check

# ---- a first build

rt 'echo "rt: crates/low is a link: put the folder itself there"; echo "0 passed, 1 failed"; exit 2'
fails "a repository that rt refuses" "rt ci ended with status 2; what it said stands in $log"
says "why rt refuses it" "build: crates/low is a link: put the folder itself there" "$city/build"
cat > "$scratch/goal" << 'SAID'
== low
note: src/main.rt:7:5: this is only a note
./proofs/of/Answers.antt:6:15: error: there is no such name
note: src/main.rt:9:1: it is not proved that the sum is in range (`sum-in-range`)
note: src/main.rt:12:1: it is not proved that the call may come (`call-requires`)
fn low::of: not proved
logic=not-proved
rt: low NOT PROVED
rt: books NOT PROVED: its library low failed
SAID
rt "cat '$scratch/goal'; exec sleep 100"
fails "a crate that isn't proved" "low isn't proved; what rt said stands in $log"
goal="crates/low/src/main.rt:9:1: it is not proved that the sum is in range (\`sum-in-range\`)"
says "its first goal" "build: low isn't proved: $goal" "$city/build"
rt 'printf "== low\n$PWD/crates/low/src/main.rt: it does not parse: at 13:1: error[token]: no\n"
printf "rt: run rt fmt in the crate'"'"'s folder\nrt: low NOT PROVED\n"; exit 1'
says "a crate that doesn't parse" "build: low isn't proved: crates/low/src/main.rt: it does not \
parse: at 13:1: error[token]: no" "$city/build"
rt 'printf "== low\nrt: run rt fmt in the crate'"'"'s folder\nrt: low NOT PROVED\n"; exit 1'
says "a crate that isn't laid out" "build: low isn't proved: run rt fmt in the crate's folder" \
    "$city/build"
expect "still no program" 1 "cityfund: $none" "$city/cityfund" desk
rt "ls -A . crates crates/low > '$scratch/copied'; cat crates.txt HANDLES >> '$scratch/copied'; both old"
expect "a first build" 0 "build: built out/cityfund and out/books in 0 minutes" "$city/build"
cat > "$scratch/wanted" << 'COPIED'
.:
.git
HANDLES
crates
crates.txt

crates:
books
cityfund
low

crates/low:
src
low:
cityfund: low std
books: low
Handles allowed: none.
COPIED
diff "$scratch/wanted" "$scratch/copied"
verdict "what rt ci is run over" $?
grep -qx "rt: low proved" "$log"
verdict "the log of what rt said" $?
expect "the program runs" 0 "old desk" "$city/cityfund" desk
expect "nothing is said before it" 0 "old desk" sh -c "'$city/cityfund' desk 2>&1 | head -n 1"
left=$(ls -A "$city/out" "$scratch/room" | xargs)
[ "$left" = "$city/out: books build.log built cityfund $scratch/room:" ]
verdict "nothing else is left: $left" $?

# ---- nothing changed, and a source that did

rt 'both new'
expect "a build once more" 0 "$same" "$city/build"
proved "which proves nothing" 1
touch "$city/crates/cases/src/main.rt" "$city/crates/low/src/main.rt"
expect "a newer source is told" 0 "cityfund: $newer" sh -c "'$city/cityfund' desk 2>&1 > out"
expect "a build where a source was only touched" 0 "$same" "$city/build"
expect "and it's told no more" 0 "old desk" sh -c "'$city/cityfund' desk 2>&1 | head -n 1"
echo change > "$city/crates/cases/src/main.rt"
echo change > "$city/crates/low/must-fail/an.edit"
expect "a crate of cases and an edit that changed" 0 "$same" "$city/build"
proved "neither is proved" 1
says "a line a crate" "build: low is proved; 1 of 3 crates, 8% of the work, in 0 minutes" \
    sh -c "echo change > '$city/crates/low/src/main.rt'; '$city/build' 2>&1 | sed 's/; some .*//'"
expect "the new program runs" 0 "new desk" sh -c "'$city/cityfund' desk 2>&1 | head -n 1"
expect "and that of books" 0 "new list -x" sh -c "'$city/books' list -x 2>&1 | head -n 1"
rt 'kept new'
says "a crate that rt kept counts" "build: books is proved; 2 of 3 crates, 50% of the work, in 0 minutes" \
    sh -c "echo more > '$city/crates/low/src/main.rt'; '$city/build' 2>&1 | sed 's/; some .*//'"
echo 2 > "$scratch/kit/line"
rt 'both old'
expect "a build by another kit" 0 "build: built out/cityfund and out/books in 0 minutes" "$city/build"
cp "$scratch/new" "$city/out/books"
rt 'both old'
expect "a program that no build made" 0 "build: built out/cityfund and out/books in 0 minutes" \
    "$city/build"
expect "is made anew" 0 "old list" "$city/books" list

# ---- what goes wrong, with an old program

# spoiled: a source changed, and the old programs are still there.
spoiled() {
    expect "$1: the old program runs" 0 "old desk" "$city/cityfund" desk
    expect "$1: and isn't taken for the new one" 0 "cityfund: $newer" \
        sh -c "'$city/cityfund' desk 2>&1 > out"
}

sleep 0.1
echo again > "$city/crates/low/src/main.rt"
rt 'exit 1'
fails "a later build that fails" "rt ci ended with status 1; what it said stands in $log"
spoiled "a build that fails"
rt 'built cityfund new; echo "rt: cityfund: the program ended with status 1, and not 7"; echo "1 passed, 1 failed"; exit 1'
says "a program that rt runs and refuses" \
    "build: cityfund: the program ended with status 1, and not 7" "$city/build"
rm "$scratch/kit/rt"
fails "a build without rt" "there is no rt on the path: it comes with the Rattle kit" \
    sh -c "PATH=\$(dirname \"\$(command -v python3)\"):/usr/bin:/bin '$city/build'"
printf '#!/bin/sh\nexit 3\n' > "$scratch/broken"
chmod +x "$scratch/broken"
rt 'both broken'
fails "a program that doesn't run" "the program that was built doesn't run"
rt 'both new'
fails "other words" "the words are ./build, or ./build --keep with words for rt" "$city/build" --jobs 1
rt 'echo "OSError: [Errno 28] No space left on device"; exit 1'
in_desk "$city/build" | grep -q "^build: failed: the disk of $scratch/room/cityfund-build\..* is full; "
verdict "a disk that is full when rt writes" $?
mkdir "$scratch/small"
if [ "$(id -u)" -eq 0 ] && mount -t tmpfs -o size=1m tmpfs "$scratch/small" 2> /dev/null; then
    fails "a disk that is too small" "the disk of $scratch/small has 0.0 GB free, and a build needs \
0.0; TMPDIR may name a folder of another one" env TMPDIR="$scratch/small" "$city/build"
    umount "$scratch/small"
else
    echo "launcher: skipped: no disk of its own can be mounted"
fi
spoiled "a full disk"

# at_work: a build whose rt goes on until it's ended; `build` and `rt` are the processes.
at_work() {
    rt "echo \$\$ > '$scratch/pid'; exec sleep 100"
    rm -f "$scratch/pid"
    in_desk "$city/build" > "$scratch/first" &
    until [ -s "$scratch/pid" ] || ! kill -0 $! 2> /dev/null; do sleep 0.05; done
    rt=$(cat "$scratch/pid")
    build=$(awk '{ print $4 }' "/proc/$rt/stat")
}

# gone NAME: the build ended, its rt with it, on a busy machine within some seconds.
gone() {
    wait 2> /dev/null
    left=100
    while [ $left -gt 0 ] && [ -n "$(sed 's/.*) //; /^Z/d' "/proc/$rt/stat" 2> /dev/null)" ]; do
        sleep 0.1
        left=$((left - 1))
    done
    [ $left -gt 0 ]
    verdict "$1: rt ends with it" $?
}

at_work
fails "a second build meanwhile" "another ./build is at work here"
fails "and one over kept work" "another ./build is at work here" "$city/build" --keep
kill "$build"
gone "a build that is stopped"
grep -qx "build: failed: it was stopped; the programs of out/ are as they were" "$scratch/first"
verdict "a build that is stopped says so: $(cat "$scratch/first")" $?
[ -z "$(ls -A "$scratch/room")" ]
verdict "and leaves no copy" $?
at_work
kill -9 "$build"
gone "a build that is killed"
spoiled "a build that is killed"
rt 'both new'
expect "a build after it" 0 "build: built out/cityfund and out/books in 0 minutes" "$city/build"
left=$(ls -A "$city/out" "$scratch/room" | xargs)
[ "$left" = "$city/out: books build.log built cityfund $scratch/room:" ]
verdict "and nothing of the killed one is left: $left" $?

# ---- a build over kept work

# runs PROGRAM STATUS: what `rt run` does in the folder of a program.
runs() {
    echo "name=\$(basename \"\$PWD\"); mkdir -p out; cp '$scratch/$1' out/\$name
    [ \$name != books ] || [ $2 -ne 7 ] || exit 4; exit $2"
}
rt 'exit 1' "$(runs old 7)"
expect "a build over kept work" 0 "build: built out/cityfund and out/books" \
    "$city/build" --keep --jobs 1
[ "$(grep run "$scratch/calls" | xargs)" = "run --jobs 1 -- desk run --jobs 1 -- check" ]
verdict "what rt was asked: $(xargs < "$scratch/calls")" $?
expect "its program" 0 "old desk" "$city/cityfund" desk
expect "nothing changed since it" 0 "$same" "$city/build"
rt 'exit 1' "$(runs new 1)"
fails "one that fails" "rt ended with status 1" "$city/build" --keep
expect "the old program runs" 0 "old desk" "$city/cityfund" desk
rt 'exit 1' "$(runs broken 7)"
fails "one whose program doesn't run" "the program that was built doesn't run" "$city/build" --keep

# ---- what the gate built

# gate PROGRAM: a run of the gate that passed, whose programs are there.
gate() {
    sources=$(in_desk "$city/build" --sources)
    for name in cityfund books; do
        mkdir -p "$city/crates/$name/out"
        cp "$scratch/$1" "$city/crates/$name/out/$name"
        rm -f "$city/crates/$name/out/sources"
    done
}
took="build: took over out/cityfund and out/books from the gate, which built them of these sources"
rt 'both old'
echo gate > "$city/crates/low/src/main.rt"
gate new
in_desk "$city/build" --passed "$sources"
expect "what the gate built" 0 "$took" "$city/build"
proved "is not built again" 1
expect "its program runs" 0 "new desk" sh -c "'$city/cityfund' desk 2>&1 | head -n 1"
expect "and once more" 0 "$same" "$city/build"
echo later > "$city/crates/low/src/main.rt"
expect "the gate's programs of other sources" 0 \
    "build: built out/cityfund and out/books in 0 minutes" "$city/build"
expect "aren't taken" 0 "old desk" "$city/cityfund" desk
gate new
echo meanwhile > "$city/crates/low/src/main.rt"
in_desk "$city/build" --passed "$sources"
[ ! -e "$city/crates/books/out/sources" ]
verdict "a source that changed while the gate ran" $?
gate new
in_desk "$city/build" --passed "$sources"
cp "$scratch/broken" "$city/crates/books/out/books"
expect "a program that rt built after the gate" 0 \
    "build: built out/cityfund and out/books in 0 minutes" "$city/build"
expect "isn't taken" 0 "old desk" "$city/cityfund" desk
grep -qx 'rt ci || exit $?' .ci/run
verdict "the gate's line of rt ci" $?
rt 'both new'
echo last > "$city/crates/low/src/main.rt"
expect "a last build" 0 "build: built out/cityfund and out/books in 0 minutes" "$city/build"

# ---- what could be a journal

printf '\003\001entries' > "$scratch/desk/fund.journal"
expect "found beside what isn't a journal" 1 \
    "cityfund: fund.journal doesn't begin as a journal, and may still hold entries: move it away first" "$city/cityfund" found
expect "desk beside it" 0 "new desk" "$city/cityfund" desk
printf '\001\001entries' > "$scratch/desk/fund.journal"
expect "found beside a journal" 0 "new found" "$city/cityfund" found
printf '\003' > "$scratch/desk/fund.journal"
expect "found beside one byte" 0 "new found" "$city/cityfund" found
: > "$scratch/desk/fund.journal"
expect "found beside an empty file" 0 "new found" "$city/cityfund" found

rm "$scratch/desk/fund.journal"

# A link, a link to a link, and a link on the path, from another folder.
mkdir "$scratch/links"
for name in cityfund books build; do
    ln -s "$city/$name" "$scratch/links/$name"
    ln -s "../links/$name" "$scratch/kit/$name"
done
expect "a link" 0 "new desk" "$scratch/links/cityfund" desk
expect "a link to a link" 0 "new desk" "$scratch/kit/cityfund" desk
expect "a link on the path" 0 "new list -x" books list -x
rt 'both old'
echo link > "$city/crates/low/src/main.rt"
expect "a build by a link" 0 "build: built out/cityfund and out/books in 0 minutes" build
expect "the program that it built" 0 "old desk" cityfund desk
rm "$city/out/books"
expect "no program behind a link" 1 "books: there is no program yet: run $city/build" books check

# What a user may not write is said, and the program runs all the same. Root may write everything, so another user asks.
chmod -R a+rX "$scratch"
if [ "$(id -u)" -ne 0 ]; then
    as() { "$@"; }
elif command -v setpriv > /dev/null; then
    as() { setpriv --reuid=nobody --clear-groups "$@"; }
else
    as() { false; }
fi

# told NAME LINES WORDS..: a user who isn't root runs the launcher with the words; LINES is all that is said.
told() {
    name=$1 wanted=$2
    shift 2
    said=$(cd "$scratch/desk" && as "$city/cityfund" "$@" 2>&1)
    [ "$said" = "$wanted" ]
    verdict "$name: $said" $?
}

user=$(as id -un 2> /dev/null)
if [ -z "$user" ]; then
    echo "launcher: skipped: there is no other user to ask as"
else
    journal="cityfund: user $user can't read and write $scratch/desk/fund.journal"
    chmod 555 "$scratch/desk"
    told "a folder that can't be written" "cityfund: user $user can't write in the folder $scratch/desk
old found" found
    told "a desk there" "old desk" desk
    chmod 755 "$scratch/desk"
    printf '\001\001entries' > "$scratch/desk/fund.journal"
    chmod 444 "$scratch/desk/fund.journal"
    told "a journal to read alone" "$journal
old desk" desk
    told "a report over it" "$journal
old report 2026 balance" report 2026 balance
    told "serve over it" "$journal
old serve --doors 2" serve --doors 2
    told "a run in memory beside it" "old generate 10" generate 10
    chmod 000 "$scratch/desk/fund.journal"
    told "found beside a journal that can't be read" "$journal
old found" found
    chmod 666 "$scratch/desk/fund.journal"
    told "a journal that can be written" "old desk" desk
    chmod 311 "$scratch/desk"
    told "a folder that can't be read, which a run syncs" "cityfund: user $user can't read the folder $scratch/desk
old desk" desk
    chmod 777 "$scratch/desk"
    rm "$scratch/desk/fund.journal"
    told "a folder that can be written" "old found" found
fi

summary launcher
