"""A city whose eight lines have room: read by serve.sh and postgres.sh."""
import json
import os
import shutil
import subprocess
import sys

# The account of each of eight doors, each on a line of its own.
ACCOUNTS = [(1, 10, 510), (1, 10, 520), (1, 10, 710), (1, 20, 510), (2, 20, 510), (3, 20, 710), (2, 10, 510), (3, 10, 710)]
MORE_LINES = "\n[[line]]\nfund = 2\ndept = 10\n\n[[line]]\nfund = 3\ndept = 10\nclass = 7\n"
ADOPTED = ((1, (0, 1, 2, 3)), (2, (4, 8)), (3, (5, 9)))


def found(program, chart, folder):
    """Founds a new journal in the folder, with the chart of Rivertown and two lines more, adopts a budget for all eight, and goes there."""
    os.makedirs(folder, exist_ok=True)
    os.chdir(folder)
    for name in os.listdir():
        shutil.rmtree(name) if os.path.isdir(name) else os.remove(name)
    with open(chart) as own, open("chart.toml", "w") as longer:
        longer.write(own.read() + MORE_LINES)
    subprocess.run([program, "found"], stdout=subprocess.DEVNULL, check=True)
    adoptions = [{"call": "adopt", "desk": 1, "key": f"b{fund}", "on": "2025-07-01", "fund": fund, "year": 2026,
                  "lines": [{"line": line, "amount": 1000000000} for line in lines], "estimates": []} for fund, lines in ADOPTED]
    said = subprocess.run([program, "desk"], input="".join(json.dumps(call) + "\n" for call in adoptions).encode(), stdout=subprocess.PIPE)
    if said.stdout.count(b'"ok"') != len(ADOPTED):
        sys.exit(f"no adoptions: {said.stdout}")
