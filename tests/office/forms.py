"""The rules of form that an issue, a lease and a look at a report have of their own (docs/CALLS.md), each by the name of its field."""
import datetime

from statements import TITLES

PERIODS = (1, 2, 3, 4, 6, 12)  # months
LAST_MONTH = 12 * 2199 + 11


def fault_of(call):
    """The name of the first field against a rule of form, or None."""
    if call["call"] == "report":
        return None if call["kind"] in TITLES else "kind"
    if call["call"] not in ("issue", "lease"):
        return None
    on, every, principals = datetime.date.fromisoformat(call["on"]), call["every"], call["principals"]
    term = every * len(principals)
    if on.day > 28:
        return "on"
    if call["rate_bp"] > 10000:
        return "rate_bp"
    if every not in PERIODS:
        return "every"
    if not 1 <= len(principals) <= 120 or sum(principals) != call["amount"] or 12 * on.year + on.month - 1 + term > LAST_MONTH:
        return "principals"
    if call["call"] == "lease" and term <= 12:
        return "principals"
    return None
