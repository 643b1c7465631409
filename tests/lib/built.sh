# Read by the scripts of tests/ and bench/, with `top` set.

# built NAME: the program that was built last, by ./build or by rt.
built() {
    if [ -x "$top/out/$1" ] && [ ! "$top/crates/$1/out/$1" -nt "$top/out/$1" ]; then
        echo "$top/out/$1"
    else
        echo "$top/crates/$1/out/$1"
    fi
}
