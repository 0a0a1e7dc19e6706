#!/usr/bin/env python3
"""The gate's run of the trial program: makes crates/trial/stdin and crates/trial/stdout again, from nothing but this file.

    bench/gate_input.py make            writes both files
    bench/gate_input.py check           are the files those that `make` writes?
    bench/gate_input.py pipe PROGRAM    feeds the input to the program by a pipe, in pieces that end in the middle of records

The input is the ten requests that document 01 prints, then requests from a generator, and five bytes that are no whole record. The program reads 64 KiB at
a time from a file, so the input is longer than that: the last requests are a second batch. One job is opened near the start and asks again at the end, about
cells that were written or added to by jobs of the first batch, which have ended since, one of them by a publish.

The replies are not the arbiter's. They come from the class `Whole`, which keeps every granted request and decides a step by the precedences of the whole
kept history. Every code comes up but 6: the program starts from number 1, and 6 wants 4,294,967,295 opens. An open names its port: one of the three, or one that is none."""
import os
import subprocess
import sys
import time

OPEN, READ, WRITE, END, ABANDON, PUBLISH, ADD = 1, 2, 3, 4, 5, 6, 7
BATCH = 65536
TOP = os.path.join(os.path.dirname(os.path.abspath(__file__)), "..", "crates", "trial")


def request(kind, byte1, cell, job):
    return bytes([kind, byte1]) + cell.to_bytes(2, "little") + job.to_bytes(4, "little")


class Whole:
    """Answers from the whole kept history."""

    def __init__(self, first):
        self.next, self.opened, self.gone, self.ports = first, [], set(), {}
        self.steps = []  # (job, cell, kind), every granted step
        self.spared = 0  # adds that were granted where a write would not be
        self.later = {}  # job: the jobs that it precedes by a conflict
        self.ended = {}  # job: how many jobs had been opened when it ended; it precedes those that were opened after

    def precede(self, job, cell, kind):
        """The kept jobs with a step that this one would conflict with: any but two reads, or two adds."""
        return {j for j, c, k in self.steps if c == cell and j != job and not (k == kind != WRITE)}

    def circle(self, job, before):
        """Is one of the jobs `before` reached from the job along precedences?"""
        seen, todo, opened = set(), [job], len(self.opened)
        while todo:
            i = todo.pop()
            follow = list(self.later.get(i, ()))
            if self.ended.get(i, opened) < opened:
                # those opened after its end, but for the ones that are in already; an abandoned one among them leads to none
                follow += self.opened[self.ended[i] : opened]
                opened = self.ended[i]
            for j in follow:
                if j not in seen:
                    seen.add(j)
                    todo.append(j)
        return bool(seen & before)

    def ask(self, r):
        kind, cell, job = r[0], int.from_bytes(r[2:4], "little"), int.from_bytes(r[4:8], "little")
        if not 1 <= kind <= 7 or r[1] != 0:
            return 1, 0
        if kind == PUBLISH:  # a write, and where that is granted an end
            said = self.ask(request(WRITE, 0, cell, job))
            return said if said[0] else self.ask(request(END, 0, 0, job))
        if kind == OPEN:
            if self.next > 0xFFFFFFFF:
                return 6, 0
            if job > 2:
                return 8, 0
            if len(self.opened) - len(self.gone) == 32:
                return 5, 0
            if sum(self.ports[j] == job for j in self.opened if j not in self.gone) == 16:
                return 9, 0
            self.ports[self.next] = job
            self.next += 1
            self.opened.append(self.next - 1)
            return 0, self.next - 1
        if kind in (READ, WRITE, ADD) and cell > 255:
            return 2, 0
        if job not in self.opened or job in self.gone:
            return 3, 0
        if kind in (READ, WRITE, ADD):
            before = self.precede(job, cell, kind)
            if self.circle(job, before):
                return 7, 0
            self.spared += kind == ADD and self.circle(job, self.precede(job, cell, WRITE))
            for j in before:
                self.later.setdefault(j, set()).add(job)
            self.steps.append((job, cell, kind))
        if kind == ABANDON:
            if any(j == job and k != READ for j, _, k in self.steps):
                return 4, 0
            self.steps = [s for s in self.steps if s[0] != job]
            self.later.pop(job, None)
            for js in self.later.values():
                js.discard(job)
        if kind == END:
            self.ended[job] = len(self.opened)
        if kind in (END, ABANDON):
            self.gone.add(job)
        return 0, job


class Random:
    """xorshift: the same numbers from the same seed everywhere."""

    def __init__(self, seed):
        self.x = seed

    def below(self, n):
        x = self.x
        x ^= x << 13 & 0xFFFFFFFFFFFFFFFF
        x ^= x >> 7
        self.x = x = x ^ (x << 17 & 0xFFFFFFFFFFFFFFFF)
        return (x >> 20) % n


# How many jobs the generator opens at most, of how many cells it takes one, how many of a hundred requests are bad, how many of a hundred leavings are abandons, and how many of a hundred
# opens are of port 1; the others are of any.
SHAPES = [(6, 8, 4, 20, 0), (33, 40, 4, 20, 0), (12, 6, 4, 60, 0), (33, 40, 4, 20, 80), (10, 240, 40, 20, 0)]


def port(r, one):
    """A port, and now and then a number that is none: 3 to 5, one with a port in its low byte, any."""
    p = 1 if r.below(100) < one else r.below(3)
    return {0: p + 3, 1: p + 256 * (1 + r.below(99)), 2: r.below(0x100000000)}.get(r.below(40), p)


def some(r, shape, live):
    """A request that is likely to be granted, or one that is not. `live` are the jobs that the generator knows to be open."""
    most, cells, bad, abandons, one = shape
    job = live[r.below(len(live))] if live else 0
    if r.below(100) < bad:
        return [
            request(r.below(256), 0, r.below(300), job),
            request(1 + r.below(7), 1 << r.below(8), r.below(300), job),
            request((READ, WRITE, PUBLISH, ADD)[r.below(4)], 0, 256 + r.below(65280), job),
            request(2 + r.below(6), 0, r.below(250), r.below(0x100000000)),
            request(2 + r.below(6), 0, r.below(250), max(0, job - 1 - r.below(9))),
        ][r.below(5)]
    if not live or (len(live) < most and r.below(4) == 0):
        return request(OPEN, 0, r.below(65536), port(r, one))
    if r.below(8 if len(live) < most else 4) == 0:
        if r.below(3) == 0:
            return request(PUBLISH, 0, r.below(cells), job)
        return request(ABANDON if r.below(100) < abandons else END, 0, r.below(65536), job)
    return request((READ, READ, WRITE, ADD)[r.below(4)], 0, r.below(cells), job)


def make():
    """The input and the output."""
    whole, data, out, live = Whole(1), bytearray(), ["request code job"], []

    def ask(r):
        code, job = whole.ask(r)
        out.append("%d %d %d" % (len(data) // 8, code, job))
        data.extend(r)
        if code == 0 and r[0] == OPEN:
            live.append(job)
        if code == 0 and r[0] in (END, ABANDON, PUBLISH):
            live.remove(job)
        return code, job

    # document 01's ten
    for kind, cell, job in [(OPEN, 0, 0), (OPEN, 0, 0), (READ, 5, 1), (READ, 5, 2), (WRITE, 5, 2), (END, 0, 2), (WRITE, 5, 1), (WRITE, 256, 1), (ABANDON, 0, 1), (READ, 5, 1)]:
        ask(request(kind, 0, cell, job))
    # one job reads cells 250 and 253 and stays; another writes cells 250 and 251 and ends; a third writes cell 254, adds to cell 255 and publishes cell 253. The generator takes no
    # cell from 250 on but in bad requests
    stays = ask(request(OPEN, 0, 0, 0))[1]
    ask(request(READ, 0, 250, stays))
    ask(request(READ, 0, 253, stays))
    leaves, publishes = ask(request(OPEN, 0, 0, 0))[1], ask(request(OPEN, 0, 0, 0))[1]
    for kind, cell in [(WRITE, 250), (WRITE, 251), (END, 0)]:
        ask(request(kind, 0, cell, leaves))
    assert ask(request(WRITE, 0, 254, publishes)) == (0, publishes)
    assert ask(request(ADD, 0, 255, publishes)) == (0, publishes)
    assert ask(request(PUBLISH, 0, 253, publishes)) == (0, publishes)
    assert ask(request(PUBLISH, 0, 253, publishes))[0] == 3
    live.remove(stays)
    r = Random(20240301)
    while len(data) < BATCH + 8 * 28:
        ask(some(r, SHAPES[len(data) // 2048 % len(SHAPES)], live))
    # in the second batch: what the other jobs wrote closes a circle, by a publish too, and a cell of nobody else does not; what one added to may be added to, and not read
    live.append(stays)
    assert ask(request(READ, 0, 251, stays))[0] == 7
    assert ask(request(READ, 0, 254, stays))[0] == 7
    assert ask(request(PUBLISH, 0, 253, stays))[0] == 7
    assert ask(request(ADD, 0, 251, stays))[0] == 7
    assert ask(request(READ, 0, 255, stays))[0] == 7
    assert ask(request(ADD, 0, 255, stays))[0] == 0
    assert ask(request(ABANDON, 0, 0, stays))[0] == 4
    assert ask(request(WRITE, 0, 252, stays))[0] == 0
    assert ask(request(ABANDON, 0, 0, stays))[0] == 4
    assert ask(request(PUBLISH, 0, 252, stays))[0] == 0
    tail = bytes([OPEN, 0, 0, 0, 0])
    out.append("tail %d" % len(tail))
    return bytes(data) + tail, ("\n".join(out) + "\n").encode(), whole.spared


def pipe(program, data, out):
    """The program's output where the input comes by a pipe, a piece at a time."""
    for size in (9973, 40961, 65531):
        child = subprocess.Popen([program], stdin=subprocess.PIPE, stdout=subprocess.PIPE)
        pid = os.fork()
        if pid == 0:
            child.stdout.close()
            for i in range(0, len(data), size):
                child.stdin.write(data[i : i + size])
                child.stdin.flush()
                time.sleep(0.02)
            os._exit(0)
        child.stdin.close()
        said = child.stdout.read()
        os.waitpid(pid, 0)
        child.wait()
        print("pieces of %d bytes: %s" % (size, "as expected" if said == out else "DIFFERS"))
        if said != out:
            return 1
    return 0


def act(words, top, data, out):
    """What the first word asks: writes the two files, pipes the input to a program, or compares the files with what they should be."""
    if words[0] == "make":
        for name, content in (("stdin", data), ("stdout", out)):
            with open(os.path.join(top, name), "wb") as f:
                f.write(content)
        return 0
    if words[0] == "pipe":
        return pipe(words[1], data, out)
    same = all(open(os.path.join(top, name), "rb").read() == content for name, content in (("stdin", data), ("stdout", out)))
    print("%d passed, %d failed" % (same, not same))
    return not same


def main():
    words = sys.argv[1:] or ["check"]
    data, out, spared = make()
    codes = [line.split()[1] for line in out.decode().splitlines()[1:-1]]
    print("%d bytes; of each code %s" % (len(data), ", ".join("%s %d" % (c, codes.count(c)) for c in sorted(set(codes)))))
    for kind, name in ((PUBLISH, "publishes"), (ADD, "adds")):
        those = [c for i, c in enumerate(codes) if data[8 * i] == kind]
        print("%d %s; of each code %s" % (len(those), name, ", ".join("%s %d" % (c, those.count(c)) for c in sorted(set(those)))))
    print("%d adds granted where a write would not be" % spared)
    return act(words, TOP, data, out)


if __name__ == "__main__":
    sys.exit(main())
