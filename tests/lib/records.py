"""Reads the lists of `books` as records."""
import csv
import io
import subprocess


def rows_of(books, journal, *words):
    """The rows of a list of a journal as dictionaries."""
    ran = subprocess.run(
        [books, *words, journal, "--csv"], check=True, capture_output=True, text=True
    )
    return list(csv.DictReader(io.StringIO(ran.stdout)))
