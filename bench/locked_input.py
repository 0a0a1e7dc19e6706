#!/usr/bin/env python3
"""The gate's run of the program `locked`: makes crates/locked/stdin and crates/locked/stdout again, from nothing but this file and the generator of gate_input.py.

    bench/locked_input.py make            writes both files
    bench/locked_input.py check           are the files those that `make` writes?
    bench/locked_input.py pipe PROGRAM    feeds the input to the program by a pipe, in pieces that end in the middle of records

The input is requests whose replies were worked out by hand from document 02, order 10, then requests from a generator, and five bytes that are no whole record. The program reads 64 KiB at a
time from a file, so the input is longer than that: the last requests are a second batch, and a job that was opened near the start still holds cells then.

The replies are not the project's. They come from the class `Holds`, which keeps for each cell who holds it and how. Every code comes up but 6 and 7: the program starts from number 1, and 7 is not given."""
import os
import sys

from gate_input import ABANDON, ADD, BATCH, END, OPEN, PUBLISH, READ, SHAPES, WRITE, Random, act, request, some

TOP = os.path.join(os.path.dirname(os.path.abspath(__file__)), "..", "crates", "locked")


class Holds:
    """Answers from who holds which cell."""

    def __init__(self, first):
        self.next, self.port, self.altered = first, {}, set()
        self.shared, self.alone = {}, {}  # cell: the jobs that read it; cell: the job that wrote it or added to it

    def leave(self, job):
        del self.port[job]
        self.altered.discard(job)
        for jobs in self.shared.values():
            jobs.discard(job)
        self.alone = {c: j for c, j in self.alone.items() if j != job}

    def ask(self, r):
        kind, cell, job = r[0], int.from_bytes(r[2:4], "little"), int.from_bytes(r[4:8], "little")
        if not 1 <= kind <= 7 or r[1] != 0:
            return 1, 0
        if kind == OPEN:
            if self.next > 0xFFFFFFFF:
                return 6, 0
            if job > 2:
                return 8, 0
            if len(self.port) == 32:
                return 5, 0
            if sum(p == job for p in self.port.values()) == 16:
                return 9, 0
            self.port[self.next] = job
            self.next += 1
            return 0, self.next - 1
        step = kind in (READ, WRITE, ADD, PUBLISH)
        if step and cell > 255:
            return 2, 0
        if job not in self.port:
            return 3, 0
        if step:
            others = self.shared.get(cell, set()) - {job}
            if self.alone.get(cell, job) != job or (kind != READ and others):
                return 10, 0
            if kind == READ:
                self.shared.setdefault(cell, set()).add(job)
            else:
                self.alone[cell] = job
                self.altered.add(job)
        if kind == ABANDON and job in self.altered:
            return 4, 0
        if kind in (END, ABANDON, PUBLISH):
            self.leave(job)
        return 0, job


# By hand: kind, cell, job (of an open the port), code, job answered. Two read cell 5 together, and neither may alter it; job 1 writes cell 6, and job 2 may do nothing to it; job 2 adds to cell 7, and job 1 may
# not add to it, though two adds can change places. What a job holds does not bar it. What was put off is not held: job 1 may write cell 8, which job 2 could not have. A publish is put off as its
# write, and the job stays open. The end of job 2 frees what it held; an abandoned job 3 holds nothing. The order of the codes: 1, 2, 3, 10.
HAND = [
    (OPEN, 0, 0, 0, 1),
    (OPEN, 0, 0, 0, 2),
    (READ, 5, 1, 0, 1),
    (READ, 5, 2, 0, 2),
    (WRITE, 5, 2, 10, 0),
    (ADD, 5, 1, 10, 0),
    (WRITE, 6, 1, 0, 1),
    (READ, 6, 2, 10, 0),
    (WRITE, 6, 2, 10, 0),
    (ADD, 6, 2, 10, 0),
    (READ, 6, 1, 0, 1),
    (ADD, 6, 1, 0, 1),
    (ADD, 7, 2, 0, 2),
    (ADD, 7, 1, 10, 0),
    (READ, 7, 1, 10, 0),
    (READ, 8, 1, 0, 1),
    (WRITE, 8, 2, 10, 0),
    (WRITE, 8, 1, 0, 1),
    (PUBLISH, 8, 2, 10, 0),
    (READ, 9, 2, 0, 2),
    (PUBLISH, 256, 2, 2, 0),
    (READ, 256, 99, 2, 0),
    (READ, 6, 99, 3, 0),
    (8, 6, 2, 1, 0),
    (ABANDON, 0, 2, 4, 0),
    (END, 0, 2, 0, 2),
    (ADD, 7, 1, 0, 1),
    (WRITE, 5, 1, 0, 1),
    (READ, 6, 2, 3, 0),
    (OPEN, 0, 3, 8, 0),
    (OPEN, 0, 2, 0, 3),
    (READ, 10, 3, 0, 3),
    (WRITE, 10, 1, 10, 0),
    (ABANDON, 0, 3, 0, 3),
    (WRITE, 10, 1, 0, 1),
    (PUBLISH, 9, 1, 0, 1),
    (END, 0, 1, 3, 0),
]


def make():
    """The input and the output."""
    holds, data, out, live, off = Holds(1), bytearray(), ["request code job"], [], 0

    def ask(r):
        nonlocal off
        code, job = holds.ask(r)
        out.append("%d %d %d" % (len(data) // 8, code, job))
        data.extend(r)
        off += code == 10
        if code == 0 and r[0] == OPEN:
            live.append(job)
        if code == 0 and r[0] in (END, ABANDON, PUBLISH):
            live.remove(job)
        return code, job

    for kind, cell, job, code, said in HAND:
        assert ask(request(kind, 0, cell, job)) == (code, said)
    # one job reads cell 250, writes cell 251 and adds to cell 252, and stays. The generator takes no cell from 250 on but in bad requests
    stays = ask(request(OPEN, 0, 0, 2))[1]
    for kind, cell in [(READ, 250), (WRITE, 251), (ADD, 252)]:
        assert ask(request(kind, 0, cell, stays)) == (0, stays)
    live.remove(stays)
    r = Random(20241010)
    while len(data) < BATCH + 8 * 28:
        ask(some(r, SHAPES[len(data) // 2048 % len(SHAPES)], live))
    # in the second batch it still holds them, until its end
    while len(live) > 8:
        ask(request(END, 0, 0, live[0]))
    other = ask(request(OPEN, 0, 0, 2))[1]
    assert other
    assert ask(request(READ, 0, 250, other))[0] == 0
    assert ask(request(WRITE, 0, 250, other))[0] == 10
    assert ask(request(READ, 0, 251, other))[0] == 10
    assert ask(request(ADD, 0, 252, other))[0] == 10
    live.append(stays)
    assert ask(request(WRITE, 0, 250, stays))[0] == 10
    assert ask(request(END, 0, 0, stays))[0] == 0
    assert ask(request(READ, 0, 251, other))[0] == 0
    assert ask(request(ADD, 0, 252, other))[0] == 0
    assert ask(request(PUBLISH, 0, 250, other))[0] == 0
    tail = bytes([OPEN, 0, 0, 0, 0])
    out.append("tail %d" % len(tail))
    out.append("put off %d" % off)
    return bytes(data) + tail, ("\n".join(out) + "\n").encode()


def main():
    words = sys.argv[1:] or ["check"]
    data, out = make()
    codes = [line.split()[1] for line in out.decode().splitlines()[1:-2]]
    print("%d bytes; of each code %s" % (len(data), ", ".join("%s %d" % (c, codes.count(c)) for c in sorted(set(codes), key=int))))
    for kind, name in ((READ, "reads"), (WRITE, "writes"), (ADD, "adds"), (PUBLISH, "publishes")):
        those = [c for i, c in enumerate(codes) if data[8 * i] == kind]
        print("%d %s; put off %d" % (len(those), name, those.count("10")))
    return act(words, TOP, data, out)


if __name__ == "__main__":
    sys.exit(main())
