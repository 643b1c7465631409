"""A long journal, written as its format says (docs/JOURNAL.md): read by the scripts that open one."""
import datetime
import os
import struct


def day(year, month, date):
    return (datetime.date(year, month, date) - datetime.date(1970, 1, 1)).days


def head(kind, desk, key, on):
    """What each entry begins with: its kind, desk, key and day."""
    return struct.pack(">BHB", kind, desk, len(key)) + key.encode() + struct.pack(">I", on)


def adoption(line, amount):
    return head(1, 1, "b", day(2025, 7, 1)) + struct.pack(">HHHHQH", 1, 2026, 1, line, amount, 0)


def voucher(number, items=1):
    return (head(9, 4, f"v{number}", day(2025, 7, 5))
            + struct.pack(">IBH", 77, 0, items)                 # vendor, pay back, how many items
            + struct.pack(">HHHQB", 1, 20, 510, 1, 0) * items   # fund, department, object, amount, no order item
            + struct.pack(">II", number, 1))                    # its number, and its first asset's


def receipt(number, source, on):
    return head(14, 5, f"r{number}", on) + struct.pack(">HQ", source, 1)  # one cent


def record(payload):
    return b"\x01" + struct.pack(">I", len(payload)) + payload


def write(vouchers, items=1):
    """Writes fund.journal: an adoption, and so many direct vouchers of so many items. Says its size."""
    return write_entries([adoption(3, 1_000_000_000), *(voucher(number, items) for number in range(1, vouchers + 1))])


def write_receipts(receipts, sources):
    """Writes fund.journal: so many receipts on these sources in turn, over the 31 days of a July. Says its size."""
    return write_entries(receipt(n, sources[n % len(sources)], day(2025, 7, 1 + n % 31)) for n in range(receipts))


def write_entries(payloads):
    """Writes fund.journal with these entries under the chart chart.toml. Says its size."""
    with open("chart.toml", "rb") as file:
        chart = file.read()
    with open("fund.journal", "wb") as file:
        file.write(b"\x01\x02" + struct.pack(">I", len(chart)) + chart)
        for payload in payloads:
            file.write(record(payload))
        file.write(b"\x00")
        file.flush()
        os.fsync(file.fileno())
    return os.path.getsize("fund.journal")
