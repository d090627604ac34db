#!/usr/bin/env python3
"""What the program must print, from document 01 and 02's R-5 alone: a model of it that shares no code with the core and the second implementation,
the scripts that the built program is run on, and the texts that it must print for them.

    python3 tests/program/cases.py [PROGRAM]    runs target/bin/hop_program, or another, on each; the last line is 'N passed, M failed'
    python3 tests/program/cases.py --write      writes the files: cases/NAME.stdin and NAME.stdout, and those of crates/hop_program

A case passes where its two files are what stands here, and the program prints the one for the other and exits with 0.
"""
import array, fcntl, os, subprocess, sys, termios, time

LIMIT, ROOM = 16384, 61966          # bytes of the script that are read; bytes of the state's buffer


class Network:
    """Tables and lists, and no byte of the stored form."""

    def __init__(self, n):
        self.n = n
        self.links = set()                                             # ends that are up, each as its own node and the other one
        self.route = {(u, v): (0, u) if u == v else (n, None) for u in range(n) for v in range(n)}
        self.view = {}                                                 # (node, neighbour, destination) where the node's end is up; absent is n
        self.queue = {}                                                # (sender, receiver) where both ends are up: a list of [destination, value]

    def neighbours(self, u):
        return [w for w in range(self.n) if (u, w) in self.links]

    def recompute(self, u, v):
        if u == v:
            return
        best, via = self.n, None
        for w in self.neighbours(u):                                   # ascending, so the lowest number wins a tie
            d = 1 + self.view.get((u, w, v), self.n)
            if d < best:
                best, via = d, w
        changed = best != self.route[u, v][0]
        self.route[u, v] = (best, via)
        if changed:
            for w in self.neighbours(u):
                if (w, u) in self.links:                               # what goes to an end that has noticed is dropped
                    self.send(u, w, v, best)

    def send(self, u, w, v, d):
        for entry in self.queue[u, w]:
            if entry[0] == v:
                entry[1] = d
                return
        self.queue[u, w].append([v, d])

    def up(self, a, b):
        for x, y in (a, b), (b, a):
            self.links.add((x, y))
            self.queue[x, y] = [[v, self.route[x, v][0]] for v in range(self.n)]

    def notice(self, a, b):
        """a sees that its link to b is dead; b does not yet."""
        self.links.remove((a, b))
        self.queue.pop((a, b), None)
        self.queue.pop((b, a), None)
        for v in range(self.n):
            self.view.pop((a, b, v), None)
        for v in range(self.n):
            self.recompute(a, v)

    def down(self, a, b):
        for x, y in sorted([(a, b), (b, a)]):                          # the lower number first
            if (x, y) in self.links:
                self.notice(x, y)

    def deliver(self, w, u):
        v, d = self.queue[w, u].pop(0)
        self.view[u, w, v] = d
        self.recompute(u, v)

    def run_pass(self):
        held = {pair: len(entries) for pair, entries in self.queue.items()}
        for pair in sorted(held):
            for _ in range(held[pair]):
                self.deliver(*pair)

    def total(self):
        return sum(len(entries) for entries in self.queue.values())


def size(n):
    return 1 + 4 * n**2 + 3 * n**3


def apply(net, kind, body):
    """The network after an event, and the event's refusal number."""
    if kind == 15:
        n = body[0]
        if not 1 <= n <= 40:
            return net, 1
        return (net, 2) if ROOM < size(n) else (Network(n), 0)
    if kind == 19:
        net.run_pass()
        return net, 0
    a, b = body
    if a >= net.n or b >= net.n:
        return net, 4
    if a == b:
        return net, 5
    ends = {(a, b), (b, a)} & net.links
    if kind == 16:
        if ends:
            return net, {2: 6, 1: 13}[len(ends)]
        net.up(a, b)
        return net, 0
    if kind == 17:
        if not ends:
            return net, 7
        net.down(a, b)
        return net, 0
    if kind == 20:
        if (a, b) not in ends:
            return net, 7
        net.notice(a, b)
        return net, 0
    if len(ends) < 2:
        return net, 7
    if not net.queue[a, b]:
        return net, 8
    net.deliver(a, b)
    return net, 0


LENGTHS = {15: 4, 16: 6, 17: 6, 18: 6, 19: 2, 20: 6}


def read(script, at):
    """('end',), ('refused', number) or ('found', kind, body, next)."""
    left = script[at:]
    if not left:
        return ("end",)
    if len(left) < 4:
        return "refused", 9
    words = [left[i] + 256 * left[i + 1] for i in range(0, len(left) - 1, 2)]
    length, kind = words[0], words[1]
    if kind not in LENGTHS:
        return "refused", 10
    if length != LENGTHS[kind]:
        return "refused", 11
    if len(left) < length + 2:
        return "refused", 9
    return "found", kind, words[2:1 + length // 2], at + 2 + length


def text(script):
    script, net, at, ordinal, lines = script[:LIMIT], Network(1), 0, 1, ["event kind code queued"]
    while True:
        got = read(script, at)
        if got[0] == "end":
            break
        if got[0] == "refused":
            lines.append(f"{ordinal} 0 {got[1]} {net.total()}")
            break
        _, kind, body, at = got
        net, code = apply(net, kind, body)
        lines.append(f"{ordinal} {kind} {code} {net.total()}")
        ordinal += 1
    for (u, v), (distance, via) in sorted(net.route.items()):
        lines.append(f"d {u} {v} {distance} {'-' if via is None else via}")
    return "".join(line + "\n" for line in lines)


def record(kind, *body):
    return b"".join(x.to_bytes(2, "little") for x in (2 + 2 * len(body), kind, *body))


def make(n): return record(15, n)
def up(a, b): return record(16, a, b)
def down(a, b): return record(17, a, b)
def deliver(a, b): return record(18, a, b)
def notice(a, b): return record(20, a, b)


PASS = record(19)
WORKED = bytes.fromhex("04000f00020006001000000001000200130002001300")

# Each refusal that a script can meet, 3 left out, since the program's state is always sound; 11 ends the reading, and the pass behind it is not applied.
REFUSALS = (make(0) + make(41) + make(65535) + make(28) + make(3) + up(0, 3) + up(3, 3) + up(65535, 0) + up(1, 1) + up(0, 1) + up(1, 0) + up(0, 1) + up(257, 0)
            + down(0, 2) + deliver(0, 2) + deliver(2, 0) + deliver(0, 1) + PASS + PASS + PASS + deliver(0, 1) + deliver(0, 0) + deliver(0, 9)
            + up(1, 2) + deliver(1, 2) + deliver(2, 1) + PASS + PASS + PASS + PASS + down(1, 0) + down(0, 1) + PASS + (3).to_bytes(2, "little") + (19).to_bytes(2, "little") + PASS)

# 27 nodes fit and 28 do not; all their 351 links come up, and the last record's kind is unknown.
MAKES = (make(40) + make(28) + make(27) + b"".join(up(a, b) for a in range(27) for b in range(a + 1, 27)) + PASS + PASS + PASS + make(28)
         + b"".join(down(0, b) for b in range(2, 27)) + PASS + PASS + PASS + down(0, 1) + PASS * 30 + record(21) + PASS)

# The last record begins four bytes before the limit, which cuts its body off, and more follows behind it.
FRONT = make(2) + make(5) + up(0, 1) + up(1, 2) + up(2, 3)
CUT = FRONT + PASS * ((LIMIT - 4 - len(FRONT)) // 4) + up(3, 4) + PASS * 10

# The last record ends at the limit; what follows would cut every link, and is not read.
BEHIND = FRONT + (deliver(0, 1) + deliver(1, 0)) * 1021 + deliver(2, 1) + PASS + down(0, 1) + down(1, 2) + down(2, 3)

# A record that ends the reading, behind the worked ones.
FEW = WORKED + up(0, 1)[:3]                                            # fewer than four bytes
BODY = WORKED + down(0, 1)[:-1]                                        # the body's last byte is not there
KIND = WORKED + record(1, 0, 0, 0, 0, 0)[:4] + PASS + PASS             # a status record is no event, cut or not; the passes are not read
LENGTH = WORKED + (8).to_bytes(2, "little") + down(0, 1)[2:]           # two bytes too long, which are not there: the length is told first

# It comes in pieces of three bytes, so that no piece is a whole record.
PIECES = make(4) + up(0, 1) + up(1, 2) + up(2, 3) + deliver(2, 1) + PASS + up(3, 0) + PASS + PASS + down(1, 2) + deliver(0, 3) + PASS * 4

# 1 notices before 2 does: 2 keeps its way over the dead link, and tells 0 alone when 0-2 comes up; record 17 gives the notice that is missing.
LINE = make(3) + up(0, 1) + up(1, 2) + PASS * 3
NOTICES = (LINE + notice(1, 2) + notice(1, 2) + up(1, 2) + up(2, 1) + deliver(1, 2) + deliver(2, 1) + PASS * 3 + up(0, 2) + deliver(0, 2) + PASS + down(2, 1) + PASS * 3
           + notice(2, 1) + down(1, 2) + up(1, 2) + PASS * 3 + notice(2, 1) + notice(1, 2) + PASS * 3 + up(2, 1) + PASS * 2)

# The end that has not noticed is left so, and its rows are printed as it has them.
STALE = LINE + up(2, 0) + PASS * 2 + notice(1, 2) + notice(0, 2) + PASS * 3

# 4 and 5 are told before 7 and 13, with an end up alone or none; a notice of a link that was never up.
NOTICE_REFUSALS = (notice(0, 0) + notice(0, 1) + make(4) + notice(0, 1) + notice(1, 0) + up(0, 1) + notice(2, 3) + notice(4, 0) + notice(0, 4) + notice(4, 4) + notice(65535, 1)
                   + notice(3, 3) + notice(1, 0) + up(1, 1) + up(0, 4) + up(260, 1) + up(0, 1) + up(1, 0) + deliver(0, 1) + deliver(1, 0) + notice(0, 1) + notice(0, 1) + up(0, 1))

# All links of 27 nodes, of which the lower end notices, then the higher one of every third; link down of the others.
LINKS = [(a, b) for a in range(27) for b in range(a + 1, 27)]
LONE = (make(27) + b"".join(up(a, b) for a, b in LINKS) + PASS * 2 + b"".join(notice(a, b) for a, b in LINKS) + PASS + b"".join(notice(b, a) for a, b in LINKS[::3])
        + b"".join(down(a, b) for a, b in LINKS[1::3]))

# A notice that ends the reading: its body is cut, it has a length of its neighbours, and the kind behind it is none.
NOTICE_BODY = WORKED + notice(0, 1)[:-2] + b"\0"
NOTICE_LENGTH = WORKED + record(20, 0) + PASS
NOTICE_KIND = WORKED + notice(1, 0) + record(21, 0, 1) + PASS

CASES = {
    "worked": WORKED,
    "nothing": b"",
    "refusals": REFUSALS,
    "makes": MAKES,
    "passes": PASS * 4096,                                             # all that is read, and not a byte more
    "cut": CUT,
    "behind": BEHIND,
    "few": FEW,
    "body": BODY,
    "kind": KIND,
    "length": LENGTH,
    "pieces": PIECES,
    "notices": NOTICES,
    "stale": STALE,
    "notice-refusals": NOTICE_REFUSALS,
    "lone": LONE,
    "notice-body": NOTICE_BODY,
    "notice-length": NOTICE_LENGTH,
    "notice-kind": NOTICE_KIND,
}
IN_PIECES = {"pieces": 3}
PATIENCE = 20                                                          # seconds

ROOT = os.path.normpath(os.path.join(os.path.dirname(os.path.abspath(__file__)), "..", ".."))
FOLDER = os.path.join(ROOT, "tests", "program", "cases")


def file_of(name, end):
    """The worked script is the program crate's own."""
    return os.path.join(ROOT, "crates", "hop_program", end) if name == "worked" else os.path.join(FOLDER, f"{name}.{end}")


def send(pipe, script, piece):
    """Sends a piece only when the one before it was read."""
    end, unread = time.monotonic() + PATIENCE, array.array("i", [0])
    for at in range(0, len(script), piece):
        os.write(pipe, script[at:at + piece])
        while True:
            fcntl.ioctl(pipe, termios.FIONREAD, unread)
            if unread[0] == 0:
                break
            if time.monotonic() > end:
                raise TimeoutError
            time.sleep(0.0005)


def wrong_with(program, name, script, should):
    """Why the case does not pass, or nothing."""
    for end, data in ("stdin", script), ("stdout", should):
        path = file_of(name, end)
        if not os.path.isfile(path) or open(path, "rb").read() != data:
            return f"{os.path.relpath(path, ROOT)} is not what the model says"
    try:
        child = subprocess.Popen([program], stdin=subprocess.PIPE, stdout=subprocess.PIPE)
    except OSError as why:
        return f"the program does not start: {why}"
    try:
        if name in IN_PIECES:
            send(child.stdin.fileno(), script, IN_PIECES[name])
        printed, _ = child.communicate(None if name in IN_PIECES else script, PATIENCE)
    except (OSError, subprocess.TimeoutExpired) as why:
        child.kill()
        child.communicate()
        return f"the program does not read or does not end: {why!r}"
    if child.returncode != 0:
        return f"the program ended with {child.returncode}"
    if printed != should:
        lines = list(zip(printed.split(b"\n"), should.split(b"\n")))
        at = next((k for k, (a, b) in enumerate(lines) if a != b), len(lines))
        return f"line {at + 1} of what the program prints is not that of {os.path.relpath(file_of(name, 'stdout'), ROOT)}"
    return None


def main(words):
    if words == ["--write"]:
        for name, script in CASES.items():
            for end, data in ("stdin", script), ("stdout", text(script).encode()):
                open(file_of(name, end), "wb").write(data)
        return 0
    program = os.path.abspath(words[0]) if words else os.path.join(ROOT, "target", "bin", "hop_program")
    passed = failed = 0
    for name, script in CASES.items():
        wrong = wrong_with(program, name, script, text(script).encode())
        print(f"{name}: {wrong or 'as expected'}")
        passed, failed = passed + (wrong is None), failed + (wrong is not None)
    for left in sorted(set(os.listdir(FOLDER)) - {f"{name}.{end}" for name in CASES for end in ("stdin", "stdout")}):
        print(f"{left}: no case has this file")
        failed += 1
    print(f"{passed} passed, {failed} failed")
    return failed != 0


if __name__ == "__main__":
    sys.exit(main(sys.argv[1:]))
