"""The office's answers to a talk, and the statements of the history that it comes to:

    answers.py CHART TALK REPLIES       compares the answers with stored replies; what isn't a call in form is passed over
    answers.py CHART TALK YEAR KIND [--csv]    prints a statement
"""
import functools
import json
import sys
import tomllib

from calls import Office, text_of


@functools.lru_cache(2)
def chart_of(text):
    return {**dict.fromkeys(("function", "fund", "department", "object", "source", "line", "desk"), []), **tomllib.loads(text.decode())}


def office_of_bytes(chart):
    return Office(chart_of(chart))


def office_of(chart):
    with open(chart, "rb") as file:
        return office_of_bytes(file.read())


def differing(office, calls, replies):
    for number, (call, reply) in enumerate(zip(calls, replies, strict=True), 1):
        if not reply.startswith('{"form"') and text_of(office.answer(json.loads(call))) + "\n" != reply:
            yield number


def compare(chart, talk, replies):
    with open(talk) as calls, open(replies) as stored:
        numbers = list(differing(office_of(chart), calls, stored))
    for number in numbers:
        print("%s: line %d differs" % (talk, number))
    return bool(numbers)


def calls_in_form(talk):
    """The calls of a talk whose replies stand beside it, without what isn't in form."""
    with open(talk) as calls, open(talk.removesuffix(".jsonl") + ".replies") as replies:
        return [json.loads(call) for call, reply in zip(calls, replies) if not reply.startswith('{"form"')]


def print_statement(chart, talk, year, kind, as_csv=None):
    office = office_of(chart)
    for call in calls_in_form(talk):
        office.answer(call)
    print((office.csv if as_csv == "--csv" else office.text)(int(year), kind), end="")


if __name__ == "__main__":
    if len(sys.argv) == 4:
        sys.exit(compare(*sys.argv[1:]))
    print_statement(*sys.argv[1:])
