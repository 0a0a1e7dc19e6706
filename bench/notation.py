#!/usr/bin/env python3
"""Import and export of logs in the report's notation (document 02, orders 5 and 8), worked out a second time, with nothing shared.

    bench/notation.py check         is crates/noted/stdout what this file answers to crates/noted/stdin?
    bench/notation.py pipe N SEED   N random cases through target/bin/noted, compared line by line with what this file answers

The form is a regular expression, with the numbers' limits in it. Where a text goes wrong follows from that alone: a text is the beginning of one of the form
if one of seven endings makes it one, and the first byte past the longest such beginning is the wrong one. The rules for logs are read off document 01's table.
How the lines are written stands at the start of crates/noted/stdin."""
import os
import random
import re
import subprocess
import sys

TOP = os.path.join(os.path.dirname(os.path.abspath(__file__)), "..")
NOTED = os.path.join(TOP, "crates", "noted")
PROGRAM = os.path.join(TOP, "target", "bin", "noted")
MOST_INPUT = 131071

# ---- the form

JOB = (
    rb"(?:0|[1-9][0-9]{0,8}|[1-3][0-9]{9}|4[01][0-9]{8}|42[0-8][0-9]{7}|429[0-3][0-9]{6}|4294[0-8][0-9]{5}|42949[0-5][0-9]{4}"
    rb"|429496[0-6][0-9]{3}|4294967[01][0-9]{2}|42949672[0-8][0-9]|429496729[0-5])"
)
CELL = rb"(?:0|[1-9][0-9]{0,3}|[1-5][0-9]{4}|6[0-4][0-9]{3}|65[0-4][0-9]{2}|655[0-2][0-9]|6553[0-5])"
SYMBOL = rb"(?:[BE]" + JOB + rb"|[RW]" + JOB + rb"\[" + CELL + rb"\])"
FORM = re.compile(rb"(?:" + SYMBOL + rb"(?: " + SYMBOL + rb")*)?")
ENDINGS = [b"", b"0", b"]", b"0]", b"[0]", b"0[0]", b"B0"]


def begins(t):
    return any(FORM.fullmatch(t + u) for u in ENDINGS)


def wrong_place(t):
    """The longest beginning of t that begins a text of the form: so many bytes."""
    low, high = 0, len(t)
    while low < high:
        middle = (low + high + 1) // 2
        low, high = (middle, high) if begins(t[:middle]) else (low, middle - 1)
    return low


# ---- logs: lists of records (kind, byte 1, cell, job)

LETTERS = {"B": 1, "R": 2, "W": 3, "E": 4}


def said_by(t):
    records = []
    for word in t.decode("ascii").split():
        job, _, cell = word[1:].rstrip("]").partition("[")
        records.append((LETTERS[word[0]], 0, int(cell or "0"), int(job)))
    return records


def pack(records):
    return b"".join(bytes([k, b]) + c.to_bytes(2, "little") + j.to_bytes(4, "little") for k, b, c, j in records)


def unpack(log):
    return [(log[i], log[i + 1], log[i + 2] + 256 * log[i + 3], int.from_bytes(log[i + 4 : i + 8], "little")) for i in range(0, len(log), 8)]


def fault(records):
    """The code and the place of the first fault, or none."""
    if len(records) > 4096:
        return 11, 0
    opened, gone, wrote = [], set(), set()
    for place, (kind, byte1, cell, job) in enumerate(records):
        if kind not in (1, 2, 3, 4, 5, 7) or byte1 != 0 or cell > 255 or (kind not in (2, 3, 7) and cell != 0):
            return 12, place
        if kind == 1:
            if opened and job <= opened[-1]:
                return 13, place
            if len(opened) == 512:
                return 14, place
            opened.append(job)
        elif job in gone or job not in opened or (kind == 5 and job in wrote):
            return 13, place
        if kind in (3, 7):
            wrote.add(job)
        if kind in (4, 5):
            gone.add(job)
    return None


def text_of(records):
    abandoned = {job for kind, _, _, job in records if kind == 5}
    words = ("%s%d" % (" BRWE"[kind], job) + ("[%d]" % cell if kind in (2, 3) else "") for kind, _, cell, job in records if job not in abandoned)
    return " ".join(words).encode()


# ---- what is answered, and the lines

def import_text(t, room):
    """The code, the place, and the log where there is one."""
    if not FORM.fullmatch(t):
        return 26, wrong_place(t), b""
    records = said_by(t)
    bad = fault(records)
    log = pack(records)
    if bad or room < len(log):
        return (bad or (24, 0)) + (b"",)
    return 0, len(log), log


def export_log(log, room):
    if len(log) % 8 or len(log) > 32768:
        return 11, 0, b""
    records = unpack(log)
    # an add has no symbol
    bad = fault(records) or next(((27, place) for place, record in enumerate(records) if record[0] == 7), None)
    t = text_of(records) if not bad else b""
    if bad or room < len(t):
        return (bad or (24, 0)) + (b"",)
    return 0, len(t), t


def mark(log):
    m = 0
    for byte in log:
        m = (m * 257 + byte + 1) % 4294967291
    return m


def told(log, back):
    return "%d %s" % (mark(log), "same" if back else "other")


def answer(line):
    if line[:1] == b"#":
        return line
    if line[:1] == b"=":
        digits = re.sub(rb"[^0-9a-f]", b"", line).decode()
        log = bytes.fromhex(digits[: len(digits) // 2 * 2])
        code, place, t = export_log(log, 69632)
        said = "log %d %d" % (code, place)
        if code == 0:
            code, place, again = import_text(t, 32768)
            said += " %d %d %s: %s" % (code, place, told(again, again == log), t.decode())
        return said.encode()
    code, place, log = import_text(line, 32768)
    said = "text %d %d" % (code, place)
    if code == 0:
        said += " " + told(log, export_log(log, len(line)) == (0, len(line), line))
        said += " %d %d" % export_log(log, max(0, len(line) - 1))[:2]
        said += " %d %d" % import_text(line, max(0, len(log) - 1))[:2]
    return said.encode()


def lines_of(data):
    return data.split(b"\n")[:-1]


def check():
    asked, said = [lines_of(open(os.path.join(NOTED, name), "rb").read()) for name in ("stdin", "stdout")]
    wrong = abs(len(asked) - len(said))
    codes = {}
    for number, (line, found) in enumerate(zip(asked, said), 1):
        want = answer(line)
        if found != want:
            wrong += 1
            print("line %d: %.200s\n  wanted %.200s\n  found  %.200s" % (number, line.decode("latin-1"), want.decode("latin-1"), found.decode("latin-1")))
        elif line[:1] != b"#":
            key = b" ".join(want.split()[:2]).decode()
            codes[key] = codes.get(key, 0) + 1
    print("; ".join("%s: %d" % (key, codes[key]) for key in sorted(codes, key=lambda k: (k.split()[0], int(k.split()[1])))))
    print("%d passed, %d failed" % (sum(codes.values()), wrong))
    return wrong != 0


# ---- random cases

def some_log(r, count, abandons, bad, adds):
    """A log of so many records. Of a thousand records so many have another number in one place; the rest follow the rules, but for the count of opens. Of a thousand steps so
    many are adds."""
    records, live, wrote = [], [], set()
    opens = r.choice([1, 2, 7])
    number = r.choice([0, 1, 7, 4294967200, r.randrange(4294967296)])
    cells = r.choice([1, 3, 256])
    while len(records) < count:
        job = r.choice(live) if live else None
        turn = r.randrange(10)
        if job is None or turn < opens:
            if number > 4294967295:
                break
            record = (1, 0, 0, number)
            live.append(number)
            number += r.choice([1, 1, 1, 2, r.randrange(1, 1000), r.randrange(1, 5000000)])
        elif turn < opens + 2 and r.randrange(4):
            kind = 5 if abandons and job not in wrote and r.randrange(2) else 4
            record = (kind, 0, 0, job)
            live.remove(job)
        else:
            kind = 7 if r.randrange(1000) < adds else 2 + r.randrange(2)
            if kind != 2:
                wrote.add(job)
            record = (kind, 0, r.randrange(cells), job)
        if r.randrange(1000) < bad:
            k, b, c, j = record
            another = r.choice([256, 300, 65535])
            record = r.choice([(r.randrange(9), b, c, j), (k, r.randrange(1, 256), c, j), (k, b, another, j), (k, b, another, j), (k, b, c, r.choice([0, 4294967295, max(0, j - 1)]))])
        records.append(record)
    return records


def some_text(r, count):
    records = some_log(r, count, False, r.choice([0, 0, 2, 40]), 0)
    words = ["%s%d" % (" BRWE"[1 + (kind + 3) % 4], job) + ("[%d]" % cell if 1 + (kind + 3) % 4 in (2, 3) else "") for kind, _, cell, job in records]
    return " ".join(words).encode()


NUMBERS = [b"0", b"00", b"01", b"255", b"256", b"65535", b"65536", b"99999", b"4294967295", b"4294967296", b"10000000000", b"429496729", b"9999999999"]
PIECES = [b"B", b"R", b"W", b"E", b"[", b"]", b" ", b"  ", b"A", b"b", b"-", b",", b"\t", b"\r", b"1", b"[5]", b"R1[5]", b"W1[0]", b"B1", b"E1"] + NUMBERS


def some_bytes(r):
    return b"".join(r.choice(PIECES) for _ in range(r.randrange(1, 12)))


def hurt(r, line):
    """One byte changed, put in or taken out."""
    at = r.randrange(len(line) + 1)
    byte = bytes([r.choice([b for b in range(256) if b != 10])]) if r.randrange(2) else r.choice([b"0", b"1", b"9", b" ", b"[", b"]", b"B", b"R", b"W", b"E", b"f"])
    return line[:at] + (byte if r.randrange(4) else b"") + line[at + r.choice([0, 1, 1]) :]


def some_line(r):
    count = r.randrange(r.choice([4, 10, 40, 40, 400])) if r.randrange(40) else r.choice([1200, 1500, 4095, 4096, 4097, 4200])
    shape = r.randrange(10)
    if shape == 0:
        return some_bytes(r)
    if shape < 7:
        line = some_text(r, count)
    else:
        line = b"=" + b" ".join(pack([record]).hex().encode() for record in some_log(r, count, True, r.choice([0, 0, 2, 40]), r.choice([0, 0, 0, 3, 60])))
    turn = r.randrange(5)
    if turn == 0:
        line = hurt(r, line)
    if turn == 1:
        line = line[: r.randrange(len(line) + 1)]
    return line


def run(lines):
    """The program's lines, or none where it failed."""
    done = subprocess.run([PROGRAM], input=b"".join(line + b"\n" for line in lines), stdout=subprocess.PIPE)
    return lines_of(done.stdout) if done.returncode == 0 else []


def pipe(count, seed):
    r = random.Random(seed)
    passed, failed, codes, waiting, size = 0, 0, {}, [], 0
    for i in range(count + 1):
        line = some_line(r) if i < count else None
        if line is None or size + len(line) + 1 > MOST_INPUT:
            said = run(waiting)
            for k, asked in enumerate(waiting):
                want = answer(asked)
                found = said[k] if k < len(said) else b"no line"
                if want == found:
                    passed += 1
                else:
                    failed += 1
                    print("%.300s\n  wanted %.200s\n  found  %.200s" % (asked.decode("latin-1"), want.decode("latin-1"), found.decode("latin-1")))
                key = b" ".join(want.split()[:2]).decode("latin-1") if asked[:1] != b"#" else "#"
                codes[key] = codes.get(key, 0) + 1
            failed += max(0, len(said) - len(waiting))
            waiting, size = [], 0
        if line is not None:
            waiting.append(line)
            size += len(line) + 1
    print("; ".join("%s: %d" % (key, codes[key]) for key in sorted(codes)))
    print("%d passed, %d failed" % (passed, failed))
    return failed != 0


def main():
    words = sys.argv[1:] or ["check"]
    if words[0] == "pipe":
        return pipe(int(words[1]), int(words[2]))
    return check()


if __name__ == "__main__":
    sys.exit(main())
