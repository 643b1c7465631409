#!/bin/sh
# Small requests a second on one link in memory, each answered by one fixed text, and the peak memory: looks of 39
# bytes, and calls with a body of 36. The time has the making of the requests in it; the peak is the link's own bytes, the
# requests twice and the answers, and what serving takes beside. Prints two rows.
top=$(cd "$(dirname "$0")/.." && pwd)
(cd "$top/crates/cases_http" && rt run < /dev/null > /dev/null 2>&1) || exit 1 # builds it where it is out of date
python3 - "$top/crates/cases_http/out/cases_http" <<'PY'
import resource, subprocess, sys, time
program, count = sys.argv[1], 900_000
end = r"\r\n"
look = f"GET /lines/3/2026 HTTP/1.1{end}Host: a{end}{end}"
call = f"POST /calls HTTP/1.1{end}Host: a{end}Content-Length: 36{end}{end}" + '{"call":"line","line":3,"year":2026}'
for name, text in [("looks", look), ("calls", call)]:
    start = time.time()
    said = subprocess.run([program], input=f"repeat {count} {text}\ncount\n", capture_output=True, text=True).stdout
    seconds = time.time() - start
    peak = resource.getrusage(resource.RUSAGE_CHILDREN).ru_maxrss
    print(f"{name}: {count / seconds:,.0f} requests a second, {peak:,} KiB at most; {said.strip()}")
PY
