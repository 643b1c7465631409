# Read by the scripts of tests/ that speak to a `serve` by other programs, with `top`, `program` and `scratch` set and expect.sh read.

# serving DOORS LINKS: founds a journal in the folder of the scratch folder that is named so, and serves it in the background. Sets `first`,
# the first port, and `serving`, the process. `chart` names a chart; without it the city is Rivertown.
serving() {
    rm -rf "$scratch/serving"
    mkdir "$scratch/serving"
    cp "${chart:-$top/examples/rivertown/chart.toml}" "$scratch/serving/chart.toml"
    first=$(PYTHONPATH=$top/tests/lib python3 -c "import doors; print(doors.free_ports($1))")
    (cd "$scratch/serving" && "$program" found > /dev/null)
    start_serving "$1" "$2"
}

# start_serving DOORS LINKS: serves the journal that is there, at the same ports.
start_serving() {
    (cd "$scratch/serving" && exec "$program" serve --port "$first" --doors "$1" --links "$2") > /dev/null &
    serving=$!
    for door in $(seq 0 $(($1 - 1))); do
        curl --silent --output /dev/null --max-time 30 --retry 100 --retry-delay 1 --retry-connrefused "http://127.0.0.1:$((first + door))/"
    done
}

# stop_serving: kills it, which loses nothing that was answered.
stop_serving() {
    kill "$serving"
    wait "$serving" 2> /dev/null
}
