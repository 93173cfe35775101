"""Writes stdin (the script) and stdout (the expected output) into the current folder: `cd crates/test_work_files` first.

Every hand-made case carries what was worked out by hand from document 01
(verdict, and for the runs the segments, finishes or records); cases.py stops
if the reference disagrees.  `cases.py --no-large` leaves the large ones out.
"""
import random
import struct
import sys
from build import pack, to_script, expected
import reference as R

OPEN = R.OPEN
script = []
answers = []
tally = {}
BIG = 2 ** 32


def case(comment, file, T=12, F=4, want=None, segs=None, fin=None, rec=None, count=None):
    """want: None for accepted, or (number, place). segs: the segments worked by
    hand (all of them). fin: the finishes. rec: {server: (arrived, finished,
    postponed, interrupted, response)}, worked by hand."""
    lines = expected(R.run, R.server_line, file, T, F)
    verdict = "accepted" if want is None else "refused %d %d" % want
    assert lines[0] == verdict, (comment, lines[0], verdict)
    if segs is not None or fin is not None or rec is not None or count is not None:
        trace = [0] * 400
        finishes = [0] * 5000
        v, n, records = R.run(file, trace, finishes)
        if segs is not None:
            assert n == len(segs) and trace[:4 * n] == [x for s in segs for x in s], \
                (comment, [tuple(trace[4 * i:4 * i + 4]) for i in range(n)])
        if fin is not None:
            assert finishes[:len(fin)] == list(fin), (comment, finishes[:len(fin)])
        for i, r in (rec or {}).items():
            assert records[i] == r, (comment, i, records[i])
        if count is not None:
            assert n == count, (comment, n)
    add(comment, file, T, F, lines)


def add(comment, file, T, F, lines):
    tokens = to_script(file, T, F)
    assert "\n" not in comment and all(ord(ch) < 128 for ch in comment)
    script.append("# %d. %s" % (len(answers) + 1, comment))
    script.append(" ".join(str(x) for x in tokens[:4]))
    words = [str(x) for x in tokens[4:]]
    for at in range(0, len(words), 24):
        script.append(" ".join(words[at:at + 24]))
    answers.append(lines)
    key = " ".join(lines[0].split()[:2])
    tally[key] = tally.get(key, 0) + 1


# ---------------------------------------------------------------- document 01
P = (10, 12, [(2, 5), (3, 5)], [(0, 0, 5), (0, 1, 3), (6, 1, 2)])
P_SEGS = [(0, 2, 0, 5), (2, 3, 1, 5), (5, 2, 0, 10), (7, 2, 1, 11), (9, 1, 0, 15)]
P_FIN = [10, 5, 9]
P_REC = {0: (1, 1, 2, 2, (10, 10)), 1: (2, 2, 1, 0, (8, 5))}
case("File P, lists that fit exactly", pack(*P), 20, 3, segs=P_SEGS, fin=P_FIN, rec=P_REC)
case("File P, longer lists", pack(*P), 64, 7, segs=P_SEGS, fin=P_FIN, rec=P_REC)
case("File Q", pack(5, 4, [(1, 5)], [(1, 0, 5)]), 16, 2,
     segs=[(1, 1, 0, 6), (2, 1, 0, 11), (3, 1, 0, 16)], fin=[OPEN], rec={0: (1, 0, 3, 0, None)})
case("the empty file of 24 bytes", pack(1, 0, [], []), 8, 2, segs=[])
case("the empty file, both lists of length 0", pack(1, 0, [], []), 0, 0, segs=[])
case("n = 65 with a bad offset: 2", pack(10, 12, [(1, 5)], [], n=65, hso=3), 8, 2, (2, 0))
case("an arrival with an unknown server and an earlier moment: 6",
     pack(10, 12, [(2, 5)], [(4, 0, 1), (3, 1, 1)]), 8, 3, (6, 1))
case("admission: 5 + 6 + 9 = 20 of 20",
     pack(20, 12, [(1, 4), (3, 10), (9, 20)], [(0, 2, 4), (0, 1, 3), (0, 0, 3)]), 64, 3,
     segs=[(0, 1, 0, 4), (1, 1, 0, 8), (2, 3, 1, 10), (5, 1, 0, 12), (6, 4, 2, 20)], fin=[10, 5, 6])
case("admission: 21 of 20, refusal 5", pack(20, 12, [(1, 4), (3, 10), (10, 20)], [(0, 2, 4)]), 8, 2, (5, 0))
case("admission: (1, 3) with H 20, refusal 4", pack(20, 12, [(1, 3)], [(0, 0, 4)]), 8, 2, (4, 0))

# ------------------------------------------------------------------- waking
case("waking (2, 7, 0, 0, 2): renews to d 9", pack(7, 12, [(2, 7)], [(2, 0, 1)]), 8, 1,
     segs=[(2, 1, 0, 9)], fin=[3])
case("waking (2, 7, 1, 23, 17): keeps, 7 < 12",
     pack(7, 30, [(2, 7)], [(2, 0, 5), (17, 0, 2)]), 32, 2,
     segs=[(2, 2, 0, 9), (4, 2, 0, 16), (6, 1, 0, 23), (17, 1, 0, 23), (18, 1, 0, 30)], fin=[7, 19])
case("waking (2, 6, 1, 10, 7): renews to d 13, 6 = 6",
     pack(6, 20, [(2, 6)], [(4, 0, 1), (7, 0, 2)]), 32, 2, segs=[(4, 1, 0, 10), (7, 2, 0, 13)], fin=[5, 9])
case("waking (2, 6, 1, 10, 6): keeps, 6 < 8",
     pack(6, 20, [(2, 6)], [(4, 0, 1), (6, 0, 2)]), 32, 2,
     segs=[(4, 1, 0, 10), (6, 1, 0, 10), (7, 1, 0, 16)], fin=[5, 8])
case("waking late, (2, 6, 1, 6, 9): renews to d 15 (the document's d 5 is in no run)",
     pack(6, 20, [(2, 6)], [(0, 0, 1), (9, 0, 2)]), 32, 2, segs=[(0, 1, 0, 6), (9, 2, 0, 15)], fin=[1, 11])
case("waking (2, 6, 0, 0, 0): renews to d 6", pack(6, 20, [(2, 6)], [(0, 0, 1)]), 32, 2, segs=[(0, 1, 0, 6)])
case("waking exactly at the deadline: renews", pack(6, 20, [(2, 6)], [(0, 0, 1), (6, 0, 2)]), 32, 2,
     segs=[(0, 1, 0, 6), (6, 2, 0, 12)])
case("waking long after the deadline, small budget left", pack(60, 200, [(30, 60)], [(0, 0, 29), (199, 0, 1)]),
     32, 2, segs=[(0, 29, 0, 60), (199, 1, 0, 259)], fin=[29, 200])
case("late waker beside a busy server: the renewed deadline decides the order",
     pack(12, 40, [(2, 6), (8, 12)], [(0, 0, 1), (9, 1, 5), (11, 0, 1)]), 32, 3,
     segs=[(0, 1, 0, 6), (9, 2, 1, 21), (11, 1, 0, 17), (12, 3, 1, 21)], fin=[1, 15, 12],
     rec={1: (1, 1, 0, 1, (6, 6))})
case("late waker that would win the node only with its old deadline",
     pack(12, 40, [(2, 12), (4, 6)], [(0, 0, 1), (13, 1, 4), (13, 0, 1)]), 32, 3,
     segs=[(0, 1, 0, 12), (13, 4, 1, 19), (17, 1, 0, 25)], fin=[1, 17, 18])
case("kept waker: its old deadline wins the node",
     pack(20, 40, [(4, 10), (4, 10)], [(0, 0, 3), (3, 1, 4), (5, 0, 1)]), 32, 3,
     segs=[(0, 3, 0, 10), (3, 2, 1, 13), (5, 1, 0, 10), (6, 2, 1, 13)], fin=[3, 8, 6],
     rec={0: (2, 2, 1, 0, (4, 3)), 1: (1, 1, 1, 1, (5, 5))})
case("two waiting jobs at one moment wake the server once, the second only adds work",
     pack(6, 20, [(3, 6)], [(2, 0, 1), (2, 0, 1), (2, 0, 2)]), 32, 3,
     segs=[(2, 3, 0, 8), (5, 1, 0, 14)], fin=[3, 4, 6], rec={0: (3, 3, 1, 0, (7, 4))})
case("a busy server only gets the work: no second budget",
     pack(6, 20, [(2, 6), (3, 6)], [(0, 0, 1), (0, 1, 3), (1, 0, 4), (3, 0, 1)]), 32, 4,
     segs=[(0, 2, 0, 6), (2, 3, 1, 6), (5, 2, 0, 12), (7, 2, 0, 18)])
case("a busy server gets two jobs at one moment at which an idle one would renew: nothing renews",
     pack(4, 12, [(4, 4)], [(0, 0, 4), (1, 0, 1), (1, 0, 1)]), 32, 3, segs=[(0, 4, 0, 4), (4, 2, 0, 8)], fin=[4, 5, 6],
     rec={0: (3, 3, 1, 0, (13, 5))})
case("a server whose budget was refilled in advance wakes: keeps, 12 < 18",
     pack(6, 20, [(2, 6)], [(0, 0, 2), (3, 0, 1)]), 32, 2, segs=[(0, 2, 0, 6), (3, 1, 0, 12)],
     rec={0: (2, 2, 1, 0, (3, 2))})
case("the same one tick before equality: keeps", pack(6, 20, [(2, 6)], [(0, 0, 2), (5, 0, 3)]), 32, 2,
     segs=[(0, 2, 0, 6), (5, 2, 0, 12), (7, 1, 0, 18)])
case("the same at equality: renews to the same deadline", pack(6, 20, [(2, 6)], [(0, 0, 2), (6, 0, 3)]), 32, 2,
     segs=[(0, 2, 0, 6), (6, 2, 0, 12), (8, 1, 0, 18)])
case("the same one tick after equality: renews", pack(6, 20, [(2, 6)], [(0, 0, 2), (7, 0, 3)]), 32, 2,
     segs=[(0, 2, 0, 6), (7, 2, 0, 13), (9, 1, 0, 19)])
case("waking with a product beyond 32 bits: keeps, 7100 * 604800 < 604700 * 7200, which wraps",
     pack(604800, 110, [(7200, 604800)], [(0, 0, 100), (100, 0, 1)]), 16, 2,
     segs=[(0, 101, 0, 604800)], fin=[100, 101])
case("waking with a product beyond 32 bits: renews, 7102 * 604800, which wraps, >= 595800 * 7200",
     pack(604800, 9010, [(7200, 604800)], [(0, 0, 98), (9000, 0, 1)]), 16, 2,
     segs=[(0, 98, 0, 604800), (9000, 1, 0, 613800)], fin=[98, 9001])
case("waking with d = 7102 * 604800, beyond 2^32: keeps and comes behind server 1",
     pack(604800, 7120, [(1, 604800), (5, 604800)], [(0, 0, 7101), (7110, 0, 1), (7110, 1, 2)]), 16, 3,
     fin=[7101, 7113, 7112], rec={0: (2, 2, 7102, 0, (7104, 7101))})

# ------------------------------------------------- ends of jobs and of the run
case("open jobs: one finished, one begun, one never begun",
     pack(10, 8, [(3, 10), (5, 10)], [(0, 0, 2), (1, 0, 20), (2, 1, 1), (7, 0, 1)]), 32, 5,
     segs=[(0, 3, 0, 10), (3, 1, 1, 12), (4, 3, 0, 20), (7, 1, 0, 30)], fin=[2, OPEN, 4, OPEN],
     rec={0: (3, 1, 2, 1, (2, 2)), 1: (1, 1, 0, 0, (2, 2))})
case("a job that finishes exactly at N", pack(10, 8, [(4, 10)], [(4, 0, 4)]), 8, 1,
     segs=[(4, 4, 0, 14)], fin=[8], rec={0: (1, 1, 1, 0, (4, 4))})
case("a job that needs one tick more than N leaves", pack(10, 8, [(5, 10)], [(4, 0, 5)]), 8, 1,
     segs=[(4, 4, 0, 14)], fin=[OPEN], rec={0: (1, 0, 0, 0, None)})
case("the arrival at N - 1 with cost 1 finishes at N", pack(10, 8, [(5, 10)], [(7, 0, 1)]), 8, 1,
     segs=[(7, 1, 0, 17)], fin=[8])
case("the arrival at N - 1 with cost 2 is open", pack(10, 8, [(5, 10)], [(7, 0, 2)]), 8, 1,
     segs=[(7, 1, 0, 17)], fin=[OPEN])
case("N 1", pack(1, 1, [(1, 1)], [(0, 0, 1)]), 8, 1, segs=[(0, 1, 0, 1)], fin=[1], rec={0: (1, 1, 1, 0, (1, 1))})
case("a segment with work waiting that ends at N is not interrupted",
     pack(10, 5, [(5, 10)], [(0, 0, 9)]), 8, 1, segs=[(0, 5, 0, 10)], rec={0: (1, 0, 1, 0, None)})
case("a segment with work waiting that ends at N, where another server would be next: not interrupted",
     pack(10, 5, [(5, 10), (5, 10)], [(0, 0, 9), (0, 1, 3)]), 8, 2, segs=[(0, 5, 0, 10)], rec={0: (1, 0, 1, 0, None)})
case("a segment with work waiting that ends at N - 1, and another server is next: interrupted",
     pack(10, 6, [(5, 10), (5, 10)], [(0, 0, 9), (0, 1, 3)]), 8, 2, segs=[(0, 5, 0, 10), (5, 1, 1, 10)],
     rec={0: (1, 0, 1, 1, None), 1: (1, 0, 0, 0, None)})
case("a segment with work waiting that ends at N - 1, and its server carries on: not interrupted",
     pack(10, 6, [(5, 10)], [(0, 0, 9)]), 8, 1, segs=[(0, 5, 0, 10), (5, 1, 0, 20)], rec={0: (1, 0, 1, 0, None)})
case("a job that ends on its last budget tick: the deadline has moved, a postponement with no work",
     pack(10, 10, [(3, 10)], [(0, 0, 3)]), 8, 1, segs=[(0, 3, 0, 10)], fin=[3], rec={0: (1, 1, 1, 0, (3, 3))})
case("a job that ends on its last budget tick and the next one at once: a new segment, not interrupted",
     pack(10, 10, [(3, 10)], [(0, 0, 3), (3, 0, 2)]), 16, 2, segs=[(0, 3, 0, 10), (3, 2, 0, 20)], fin=[3, 5],
     rec={0: (2, 2, 1, 0, (5, 3))})
case("the moved deadline decides: after its last budget tick server 0 comes behind server 1",
     pack(10, 20, [(2, 5), (3, 10)], [(0, 0, 2), (3, 0, 1), (3, 1, 1)]), 16, 3,
     segs=[(0, 2, 0, 5), (3, 1, 0, 10), (4, 1, 1, 13)], fin=[2, 4, 5])
case("the moved deadline decides, the other way round",
     pack(10, 20, [(4, 10), (3, 5)], [(0, 0, 4), (6, 0, 1), (6, 1, 1)]), 16, 3,
     segs=[(0, 4, 0, 10), (6, 1, 1, 11), (7, 1, 0, 20)], fin=[4, 8, 7])
case("idle ticks make no segment; the same deadline after a gap is a second segment",
     pack(10, 12, [(5, 10)], [(0, 0, 2), (3, 0, 1)]), 16, 2, segs=[(0, 2, 0, 10), (3, 1, 0, 10)], fin=[2, 4])
case("several jobs of one server finish in arrival order within one segment",
     pack(10, 12, [(9, 10)], [(0, 0, 2), (0, 0, 1), (1, 0, 3), (5, 0, 1)]), 16, 4,
     segs=[(0, 7, 0, 10)], fin=[2, 3, 6, 7], rec={0: (4, 4, 0, 0, (12, 5))})
case("the longest response is not the last one",
     pack(10, 30, [(9, 10)], [(0, 0, 6), (20, 0, 1), (22, 0, 2)]), 32, 3, rec={0: (3, 3, 0, 0, (9, 6))},
     fin=[6, 21, 24])

# ------------------------------------------------------------- ties and turns
case("ties: three servers with equal deadlines, arrivals listed from the highest number",
     pack(9, 12, [(3, 9), (3, 9), (3, 9)], [(0, 2, 3), (0, 1, 3), (0, 0, 3)]), 32, 3,
     segs=[(0, 3, 0, 9), (3, 3, 1, 9), (6, 3, 2, 9)], fin=[9, 6, 3])
case("ties again and again with Q 1", pack(3, 9, [(1, 3), (1, 3), (1, 3)], [(0, 1, 9), (0, 2, 9), (0, 0, 9)]), 48, 3,
     segs=[(t, 1, t % 3, 3 * (t // 3) + 3) for t in range(9)],
     rec={0: (1, 0, 3, 3, None), 1: (1, 0, 3, 3, None), 2: (1, 0, 3, 2, None)})
case("a lower-numbered server wakes and takes over at equal deadlines",
     pack(10, 20, [(2, 5), (6, 10)], [(0, 1, 8), (5, 0, 2)]), 32, 2,
     segs=[(0, 5, 1, 10), (5, 2, 0, 10), (7, 1, 1, 10), (8, 2, 1, 20)], fin=[10, 7],
     rec={0: (1, 1, 1, 0, (2, 2)), 1: (1, 1, 1, 1, (10, 10))})
case("a higher-numbered server that wakes at equal deadlines waits",
     pack(10, 20, [(6, 10), (2, 5)], [(0, 0, 8), (5, 1, 2)]), 32, 2,
     segs=[(0, 6, 0, 10), (6, 2, 1, 10), (8, 2, 0, 20)], fin=[10, 8],
     rec={0: (1, 1, 1, 1, (10, 10)), 1: (1, 1, 1, 0, (3, 3))})
case("an earlier deadline takes the node from a lower number",
     pack(10, 20, [(6, 10), (2, 5)], [(0, 0, 8), (3, 1, 2)]), 32, 2,
     segs=[(0, 3, 0, 10), (3, 2, 1, 8), (5, 3, 0, 10), (8, 2, 0, 20)], fin=[10, 5])
case("A, B, A under A's same deadline: three segments",
     pack(20, 20, [(2, 4), (8, 20)], [(0, 1, 6), (2, 0, 1)]), 32, 2,
     segs=[(0, 2, 1, 20), (2, 1, 0, 6), (3, 4, 1, 20)], rec={1: (1, 1, 0, 1, (7, 7))})
case("idle and woken at once with the deadline kept: the same segment goes on",
     pack(10, 12, [(3, 10)], [(0, 0, 1), (1, 0, 1)]), 16, 2, segs=[(0, 2, 0, 10)], fin=[1, 2],
     rec={0: (2, 2, 0, 0, (2, 1))})
case("the same twice, until the budget ends", pack(10, 12, [(3, 10)], [(0, 0, 1), (1, 0, 1), (2, 0, 1), (3, 0, 1)]), 16, 4,
     segs=[(0, 3, 0, 10), (3, 1, 0, 20)], fin=[1, 2, 3, 4], rec={0: (4, 4, 1, 0, (4, 1))})
case("idle and woken at once with the deadline renewed: a new segment, not interrupted",
     pack(4, 12, [(4, 4)], [(0, 0, 1), (1, 0, 1)]), 16, 2, segs=[(0, 1, 0, 4), (1, 1, 0, 5)], fin=[1, 2],
     rec={0: (2, 2, 0, 0, (2, 1))})
case("just idle, gets work at the ending moment and loses the node: not interrupted",
     pack(20, 20, [(2, 5), (8, 20)], [(0, 1, 2), (2, 1, 2), (2, 0, 2)]), 32, 3,
     segs=[(0, 2, 1, 20), (2, 2, 0, 7), (4, 2, 1, 20)], fin=[2, 6, 4], rec={1: (2, 2, 0, 0, (6, 4))})
case("the same with one tick of work left: interrupted",
     pack(20, 20, [(2, 5), (8, 20)], [(0, 1, 3), (2, 1, 2), (2, 0, 2)]), 32, 3,
     segs=[(0, 2, 1, 20), (2, 2, 0, 7), (4, 3, 1, 20)], fin=[5, 7, 4], rec={1: (2, 2, 0, 1, (10, 5))})
case("just idle after a last budget tick, gets work at the ending moment and loses: not interrupted",
     pack(20, 20, [(2, 5), (2, 20)], [(0, 1, 2), (2, 1, 2), (2, 0, 2)]), 32, 3,
     segs=[(0, 2, 1, 20), (2, 2, 0, 7), (4, 2, 1, 40)], rec={1: (2, 2, 2, 0, (6, 4))})
case("a lone server with Q 1 that never stops", pack(4, 16, [(1, 4)], [(0, 0, 100)]), 64, 1,
     segs=[(t, 1, 0, 4 + 4 * t) for t in range(16)], rec={0: (1, 0, 16, 0, None)})
case("postponed again and again, and interrupted only where another server gets the next tick",
     pack(8, 12, [(1, 2), (2, 8)], [(0, 0, 6), (0, 1, 2)]), 32, 2,
     segs=[(0, 1, 0, 2), (1, 1, 0, 4), (2, 1, 0, 6), (3, 1, 0, 8), (4, 2, 1, 8), (6, 1, 0, 10), (7, 1, 0, 12)], fin=[8, 6],
     rec={0: (1, 1, 6, 1, (8, 8)), 1: (1, 1, 1, 0, (6, 6))})
case("the same over 50 budgets, with a trace list that is full long before",
     pack(100, 80, [(1, 2), (3, 100)], [(0, 0, 60), (0, 1, 3)]), 8, 2, count=61, fin=[63, 53],
     rec={0: (1, 1, 60, 1, (63, 63)), 1: (1, 1, 1, 0, (53, 53))})
case("done, an idle tick, and then another server: not interrupted",
     pack(10, 12, [(3, 10), (3, 10)], [(0, 0, 2), (3, 1, 2)]), 16, 2, segs=[(0, 2, 0, 10), (3, 2, 1, 13)], fin=[2, 5],
     rec={0: (1, 1, 0, 0, (2, 2)), 1: (1, 1, 0, 0, (2, 2))})
case("Q 1, T 1, H 1", pack(1, 6, [(1, 1)], [(0, 0, 4), (5, 0, 3)]), 64, 2,
     segs=[(0, 1, 0, 1), (1, 1, 0, 2), (2, 1, 0, 3), (3, 1, 0, 4), (5, 1, 0, 6)], fin=[4, OPEN],
     rec={0: (2, 1, 5, 0, (4, 4))})
case("Q = T = H: the whole node, a renewed deadline every period",
     pack(3, 10, [(3, 3)], [(0, 0, 8)]), 64, 1, segs=[(0, 3, 0, 3), (3, 3, 0, 6), (6, 2, 0, 9)], fin=[8],
     rec={0: (1, 1, 2, 0, (8, 8))})
case("several servers overrunning", pack(12, 30, [(1, 4), (2, 6), (3, 12)], [(0, 0, 20), (1, 1, 20), (2, 2, 20)]), 64, 3)
case("servers overrunning beside a well-behaved one: it keeps its bound",
     pack(12, 36, [(1, 6), (1, 4), (7, 12)], [(0, 1, 40), (0, 0, 40), (1, 2, 7), (13, 2, 7), (25, 2, 7)]), 64, 5)
case("an overrunning server alone goes far ahead, then others wake before it",
     pack(10, 40, [(1, 5), (2, 5), (4, 10)], [(0, 0, 30), (12, 1, 5), (13, 2, 6), (30, 0, 3)]), 64, 4)
case("a busy server's deadline 7102 * 604800, beyond 2^32: the server that wakes has the node at once",
     pack(604800, 7300, [(1, 604800), (100, 604800)], [(0, 0, 7300), (7101, 1, 50)]), 16, 2, fin=[OPEN, 7151],
     count=7101 + 1 + 149, rec={1: (1, 1, 0, 0, (50, 50))})

# --------------------------------------------------------------------- layout
case("a gap before the servers, between the blocks and bytes behind the end",
     pack(*P, so=32, ao=60, length=120), 64, 4, segs=P_SEGS, fin=P_FIN, rec=P_REC)
case("odd offsets: servers at 25, arrivals at 43, three bytes behind",
     pack(*P, so=25, ao=43, length=82), 64, 4, segs=P_SEGS, fin=P_FIN, rec=P_REC)
case("odd offsets: servers at 27, arrivals at 46, gaps of 255", pack(*P, so=27, ao=46, fill=255), 20, 3,
     segs=P_SEGS, fin=P_FIN, rec=P_REC)
case("a file of 65,536 bytes", pack(*P, length=65536), 24, 3, segs=P_SEGS, fin=P_FIN, rec=P_REC)
case("servers at 1000, arrivals at 2000, the last arrival ends with the file",
     pack(*P, so=1000, ao=2000), 24, 3, segs=P_SEGS, fin=P_FIN, rec=P_REC)
case("N 0 with servers", pack(10, 0, [(2, 5), (3, 5)], []), 8, 1, segs=[])
case("N 0 with servers and an arrival at 0: 8", pack(10, 0, [(2, 5), (3, 5)], [(0, 0, 1)]), 8, 1, (8, 0))
case("N 0 with no arrivals and a finish list of 0", pack(10, 0, [(2, 5)], []), 4, 0, segs=[])
case("n 0, m 0, N 9", pack(10, 9, [], []), 8, 1, segs=[])
case("n 0, both offsets at the end of a longer file", pack(10, 9, [], [], so=24, ao=24, hso=40, hao=40, length=40), 8, 1, segs=[])
case("n 0 with an arrival: no server is below n, 6", pack(10, 9, [], [(0, 0, 1)]), 8, 1, (6, 0))
case("m 0, N 9, two servers: nothing runs", pack(10, 9, [(2, 5), (3, 5)], []), 8, 1, segs=[])
case("m 0 with the arrival offset at the end of the file", pack(10, 9, [(2, 5)], [], hao=50, length=50), 8, 1, segs=[])
case("m 0 with the arrival offset one beyond the end: 3", pack(10, 9, [(2, 5)], [], hao=51, length=50), 8, 1, (3, 0))
case("m 0 with the arrival offset one before the end of the servers: 3", pack(10, 9, [(2, 5)], [], hao=31, length=50), 8, 1, (3, 0))
case("m 0 with the arrival offset 0: 3", pack(10, 9, [(2, 5)], [], hao=0), 8, 1, (3, 0))
case("m 0 and n 0 with the arrival offset 4294967295: 3", pack(10, 9, [], [], hao=BIG - 1), 8, 1, (3, 0))
case("n 0 with the server offset 23: 3", pack(10, 9, [], [], hso=23), 8, 1, (3, 0))
case("n 0 with the server offset behind the arrival offset: 3", pack(10, 9, [], [], hso=25, hao=24, length=30), 8, 1, (3, 0))
case("n 0 and m 0 with both offsets beyond the end: 3", pack(10, 9, [], [], hso=25, hao=25), 8, 1, (3, 0))

# ----------------------------------------------------------------- lent lists
for T in (0, 1, 3, 4, 5, 7, 8, 15, 16, 19):
    case("File P with a trace list of %d" % T, pack(*P), T, 3, segs=P_SEGS, fin=P_FIN, rec=P_REC)
case("more segments (40) than the trace list holds (16)", pack(5, 40, [(1, 5)], [(0, 0, 60)]), 64, 1, count=40,
     rec={0: (1, 0, 40, 0, None)})
case("more segments than the trace list of 63 holds", pack(5, 40, [(1, 5)], [(0, 0, 60)]), 63, 1, count=40)
case("File P with a finish list of 4, one place untouched", pack(*P), 4, 4, fin=P_FIN)
case("File P with a finish list of 64", pack(*P), 4, 64, fin=P_FIN)
case("File P with a finish list of 2: 9", pack(*P), 20, 2, (9, 0))
case("File P with a finish list of 0: 9", pack(*P), 20, 0, (9, 0))
case("File P with both lists of 0: 9", pack(*P), 0, 0, (9, 0))
case("m 0 with a finish list of 0 is accepted", pack(10, 9, [(2, 5)], []), 4, 0, segs=[])
case("all jobs open, finish list one longer", pack(10, 1, [(2, 5), (3, 5)], [(0, 0, 2), (0, 1, 2)]), 4, 3, fin=[OPEN, OPEN])

# ------------------------------------------------------------------ refusal 1
case("1: 0 bytes", b"", 5, 2, (1, 0))
case("1: 1 byte", b"\x01", 5, 2, (1, 0))
case("1: 23 bytes", pack(1, 0, [], [], length=23), 5, 2, (1, 0))
case("1: 65,537 bytes", pack(*P, length=65537), 20, 3, (1, 0))
case("1: 65,600 bytes", pack(*P, length=65600), 20, 3, (1, 0))
case("1 and 2: 23 bytes with H 0", pack(0, 0, [], [], length=23), 5, 2, (1, 0))
case("1 and 2: 65,537 bytes with H 0, N, n and m too large", pack(0, BIG - 1, [], [], n=65, m=4097, length=65537), 5, 2, (1, 0))
case("1 and 3: 65,537 bytes with a server offset of 0", pack(*P, hso=0, length=65537), 5, 3, (1, 0))
case("1 and 9: 65,537 bytes with a finish list of 0", pack(*P, length=65537), 5, 0, (1, 0))

# ------------------------------------------------------------------ refusal 2
case("2: H 0", pack(0, 12, [(2, 5)], [(0, 0, 1)]), 8, 2, (2, 0))
case("2: H 604801", pack(604801, 12, [(1, 1)], [(0, 0, 1)]), 8, 2, (2, 0))
case("H 604800 is accepted", pack(604800, 12, [(604799, 604800)], [(0, 0, 1)]), 8, 2, segs=[(0, 1, 0, 604800)])
case("2: H 4294967295", pack(BIG - 1, 12, [(1, 1)], [(0, 0, 1)]), 8, 2, (2, 0))
case("2: N 2419201", pack(10, 2419201, [(2, 5)], [(0, 0, 1)]), 8, 2, (2, 0))
case("2: N 4294967295", pack(10, BIG - 1, [(2, 5)], [(0, 0, 1)]), 8, 2, (2, 0))
case("2: n 65 with room for 65 servers", pack(650, 12, [(1, 65)] * 65, []), 8, 2, (2, 0))
case("2: n 4294967295", pack(10, 12, [(2, 5)], [], n=BIG - 1), 8, 2, (2, 0))
case("2: n 536870912, so that 8 n is 0 in 32 bits", pack(10, 12, [], [], n=2 ** 29), 8, 2, (2, 0))
case("n 64 is accepted, the last server works", pack(64, 3, [(1, 64)] * 64, [(1, 63, 2)]), 8, 2,
     segs=[(1, 1, 63, 65), (2, 1, 63, 129)], fin=[3])
case("2: m 4097 with the room for it", pack(10, 12, [(2, 5)], [], m=4097, length=60000), 8, 4100, (2, 0))
case("2: m 4294967295", pack(10, 12, [(2, 5)], [], m=BIG - 1), 8, 2, (2, 0))
case("2: m 1073741824, so that 12 m is 0 in 32 bits", pack(10, 12, [(2, 5)], [], m=2 ** 30), 8, 2, (2, 0))
case("2 and 3: H 0 and a server offset of 23", pack(0, 12, [(2, 5)], [], hso=23), 8, 2, (2, 0))
case("2 and 3: m 4097, which does not fit in the file", pack(10, 12, [(2, 5)], [], m=4097), 8, 2, (2, 0))
case("2 and 3: N too large and the arrivals inside the servers", pack(10, 2419201, [(2, 5)], [], hao=28), 8, 2, (2, 0))
case("2 and 4: H 0 with a bad server", pack(0, 12, [(0, 0)], []), 8, 2, (2, 0))
case("2 and 9: m 4097 with a finish list of 1", pack(10, 12, [(2, 5)], [], m=4097, length=60000), 8, 1, (2, 0))

# ------------------------------------------------------------------ refusal 3
case("3: server offset 23", pack(*P, hso=23), 20, 3, (3, 0))
case("3: server offset 0", pack(*P, hso=0), 20, 3, (3, 0))
case("3: arrival offset one before the end of the servers", pack(*P, hao=39), 20, 3, (3, 0))
case("3: arrival offset before the servers", pack(*P, so=60, ao=80, hao=24), 20, 3, (3, 0))
case("3: server offset one too far", pack(*P, hso=25), 20, 3, (3, 0))
case("3: the last arrival ends one beyond the file", pack(*P, length=75), 20, 3, (3, 0))
case("3: arrival offset one too far", pack(*P, hao=41), 20, 3, (3, 0))
case("3: the file ends behind the header", pack(*P, length=24), 20, 3, (3, 0))
case("3: the servers are whole, no arrival fits", pack(*P, length=40), 20, 3, (3, 0))
case("3: server offset + 8 n wraps to 0", pack(*P, hso=BIG - 16), 20, 3, (3, 0))
case("3: server offset + 8 n wraps to 15", pack(*P, hso=BIG - 1), 20, 3, (3, 0))
case("3: server offset + 8 n wraps to 24 with n 64", pack(64, 12, [(1, 64)] * 64, [], hso=BIG - 512 + 24, hao=24), 20, 3, (3, 0))
case("3: arrival offset + 12 m wraps to 0", pack(*P, hao=BIG - 36), 20, 3, (3, 0))
case("3: arrival offset + 12 m wraps to the file's length with m 10",
     pack(10, 12, [(2, 5)], [(0, 0, 1)] * 10, length=100, hao=BIG - 120 + 100), 20, 10, (3, 0))
case("3: arrival offset + 12 m wraps to 12 with m 1", pack(10, 12, [(2, 5)], [(0, 0, 1)], hao=BIG - 1), 20, 3, (3, 0))
case("3: both offsets near 2^32, both sums wrap", pack(10, 12, [(2, 5)], [(0, 0, 1)], hso=BIG - 16, hao=BIG - 4), 20, 3, (3, 0))
case("3: server offset 2147483648", pack(*P, hso=2 ** 31), 20, 3, (3, 0))
case("3: arrival offset 2147483648", pack(*P, hao=2 ** 31), 20, 3, (3, 0))
case("3: 4,096 arrivals, one byte too far, in 65,536 bytes",
     pack(10, 12, [], [], m=4096, hso=24, hao=65536 - 49152 + 1, length=65536), 20, 4, (3, 0))
case("3 and 4: a bad server and arrivals that end beyond the file", pack(10, 12, [(0, 5)], [(0, 0, 1)], length=43), 8, 2, (3, 0))
case("3 and 4: T = 0 and a server offset of 20", pack(10, 12, [(1, 0)], [], hso=20), 8, 2, (3, 0))
case("3 and 6: an unknown server and arrivals one byte too far", pack(10, 12, [(2, 5)], [(0, 9, 1)], hao=33), 8, 2, (3, 0))
case("3 and 9: the finish list is short too", pack(*P, hao=41), 20, 0, (3, 0))

# ------------------------------------------------------------------ refusal 4
G = [(1, 10), (1, 5)]
A1 = [(0, 0, 1)]
case("4: T = 0 at place 2", pack(10, 12, G + [(1, 0)], A1), 8, 2, (4, 2))
case("4: T = 0 and Q = 0 at place 1", pack(10, 12, [(1, 10), (0, 0), (1, 5)], A1), 8, 2, (4, 1))
case("4: T not dividing H at place 2", pack(10, 12, G + [(1, 4)], A1), 8, 2, (4, 2))
case("4: T twice H at place 1", pack(10, 12, [(1, 10), (1, 20)], A1), 8, 2, (4, 1))
case("4: T = H + 1 at place 0", pack(10, 12, [(1, 11)], A1), 8, 2, (4, 0))
case("4: T 4294967295 at place 1", pack(10, 12, [(1, 10), (1, BIG - 1)], A1), 8, 2, (4, 1))
case("4: T 2^31 at place 1", pack(10, 12, [(1, 10), (1, 2 ** 31)], A1), 8, 2, (4, 1))
case("4: Q = 0 at place 2", pack(10, 12, G + [(0, 5)], A1), 8, 2, (4, 2))
case("4: Q = T + 1 at place 1", pack(10, 12, [(1, 10), (6, 5)], A1), 8, 2, (4, 1))
case("4: Q 4294967295 at place 2", pack(10, 12, G + [(BIG - 1, 10)], A1), 8, 2, (4, 2))
case("4: Q 2147483648, so that the share would be 0 in 32 bits", pack(10, 12, [(1, 10), (2 ** 31, 5)], A1), 8, 2, (4, 1))
case("4: two bad servers, the first counts", pack(10, 12, [(1, 10), (0, 5), (1, 5), (1, 0)], A1), 8, 2, (4, 1))
case("4: the last of 64 servers", pack(64, 12, [(1, 64)] * 63 + [(0, 64)], A1), 8, 2, (4, 63))
case("4 and 5: over already, then a bad server", pack(10, 12, [(10, 10), (5, 5), (0, 5)], A1), 8, 2, (4, 2))
case("4 and 5: a bad server, then over", pack(10, 12, [(1, 3), (10, 10), (5, 5)], A1), 8, 2, (4, 0))
case("4 and 5: Q > T alone is 4, though its share is over H too", pack(10, 12, [(11, 10)], A1), 8, 2, (4, 0))
case("4 and 6: a bad server and an unknown server", pack(10, 12, [(1, 10), (1, 3)], [(0, 2, 1)]), 8, 2, (4, 1))
case("4 and 9: a bad server and a short finish list", pack(10, 12, [(1, 10), (1, 3)], A1), 8, 0, (4, 1))

# ------------------------------------------------------------------ refusal 5
case("5: over by one, two servers", pack(10, 12, [(2, 5), (7, 10)], A1), 8, 2, (5, 0))
case("exactly full, two servers", pack(10, 12, [(2, 5), (6, 10)], A1), 8, 2, segs=[(0, 1, 0, 5)])
case("5: over by one with H 604800", pack(604800, 12, [(302400, 604800), (302401, 604800)], A1), 8, 2, (5, 0))
case("5: over by one with small periods too", pack(604800, 12, [(1, 2), (302401, 604800)], A1), 8, 2, (5, 0))
case("5: 64 servers, each whole", pack(604800, 12, [(1, 1)] * 64, A1), 8, 2, (5, 0))
case("5: 64 servers, over by one", pack(64, 12, [(1, 64)] * 63 + [(2, 64)], A1), 8, 2, (5, 0))
case("exactly full: ten tenths", pack(10, 12, [(1, 10)] * 10, A1), 8, 2)
case("exactly full: 49 servers of 1/49", pack(49, 12, [(1, 49)] * 49, A1), 8, 2)
case("exactly full: thirds, sixths and ninths", pack(18, 12, [(1, 3), (1, 6), (2, 9), (1, 18), (2, 9)], A1), 8, 2)
case("5: a seventh too much, each share rounded down would fit",
     pack(42, 12, [(3, 7), (3, 6), (3, 42), (1, 42)], A1), 8, 2, (5, 0))
# The booking sheet: each share is taken off what is left. A frame that is used to its last tick, and the same table with a tick more at
# the first, a middle and the last server; their periods are H, so that a tick of Q is a tick of the frame. (No first server alone is
# over: with Q at most T a share is at most H.)
for H, n in [(64, 3), (64, 64), (604800, 9), (604800, 64)]:
    full = [(H // n, H)] * (n - 1) + [(H // n + H % n, H)]
    case("exactly full: %d servers, H %d" % (n, H), pack(H, 12, full, A1), 8, 2)
    for k in (0, n // 2, n - 1):
        more = full[:k] + [(full[k][0] + 1, H)] + full[k + 1:]
        case("5: %d servers, H %d, a tick over at server %d" % (n, H, k), pack(H, 12, more, A1), 8, 2, (5, 0))
# One tick is left, and a share of two meets it at the second, a middle and the last server, with servers of one tick behind it.
for at in (1, 32, 63):
    met = [(604800 - at, 604800)] + [(1, 604800)] * (at - 1) + [(2, 604800)] + [(1, 604800)] * (63 - at)
    case("5: 64 servers, one tick is left for the share of two at server %d" % at, pack(604800, 12, met, A1), 8, 2, (5, 0))
# An overrun does not hide a faulty server behind it, wherever that stands.
for at in (2, 32, 63):
    met = [(604800, 604800)] * at + [(1, 604799)] + [(604800, 604800)] * (63 - at)
    case("4 and 5: over at server 1 already, a bad server at place %d" % at, pack(604800, 12, met, A1), 8, 2, (4, at))
case("4 and 5: over at server 1 already, bad servers at 40 and 50",
     pack(604800, 12, [(1, 1)] * 40 + [(0, 1)] + [(1, 1)] * 9 + [(2, 1)], A1), 8, 2, (4, 40))
# The week of nine societies leaves 1,800 ticks (docs/RULES.md has its booking sheet): a tenth booking takes them, or is a tick over.
WEEK = [(7200, 86400), (600, 3600), (5400, 43200), (3600, 86400), (3600, 21600), (86400, 604800), (5400, 86400), (14400, 86400), (900, 21600)]
case("the week's nine societies", pack(604800, 12, WEEK, A1), 8, 2)
case("exactly full: the nine and 30 minutes in the week", pack(604800, 12, WEEK + [(1800, 604800)], A1), 8, 2)
case("5: the nine and a second more", pack(604800, 12, WEEK + [(1801, 604800)], A1), 8, 2, (5, 0))
case("5 and 6: over and a cost of 0", pack(10, 12, [(2, 5), (7, 10)], [(0, 0, 0)]), 8, 2, (5, 0))
case("5 and 6: over and an unknown server", pack(10, 12, [(2, 5), (7, 10)], [(0, 2, 1)]), 8, 2, (5, 0))
case("5 and 8: over and an arrival at N", pack(10, 12, [(2, 5), (7, 10)], [(12, 0, 1)]), 8, 2, (5, 0))
case("5 and 9: over and a short finish list", pack(10, 12, [(2, 5), (7, 10)], A1), 8, 0, (5, 0))

# ------------------------------------------------------------ refusals 6, 7, 8
S2 = [(2, 5), (3, 10)]


def arr(comment, arrivals, want, N=12, F=None, T=8, servers=S2):
    case(comment, pack(10, N, servers, arrivals), T, len(arrivals) + 1 if F is None else F, want)


arr("6: server = n at place 2", [(0, 0, 1), (1, 1, 1), (1, 2, 1)], (6, 2))
arr("6: server 63 with n 2", [(0, 0, 1), (1, 63, 1)], (6, 1))
arr("6: server 64", [(0, 0, 1), (1, 64, 1)], (6, 1))
arr("6: server 4294967295 at place 0", [(0, BIG - 1, 1)], (6, 0))
arr("6: server 4294967295 at place 3", [(0, 0, 1), (0, 0, 1), (0, 0, 1), (3, BIG - 1, 1)], (6, 3))
arr("6: server 256, which is 0 in its low byte", [(0, 0, 1), (0, 256, 1)], (6, 1))
arr("6: cost 0 at place 1", [(0, 0, 1), (1, 1, 0)], (6, 1))
arr("6: cost 604801 at place 1", [(0, 0, 1), (1, 1, 604801)], (6, 1))
arr("cost 604800 is accepted", [(0, 0, 1), (1, 1, 604800)], None)
arr("6: cost 4294967295 at place 2", [(0, 0, 1), (1, 1, 1), (2, 0, BIG - 1)], (6, 2))
arr("6 twice: the first arrival counts", [(0, 0, 1), (1, 1, 0), (2, 5, 1)], (6, 1))
arr("6 and 7 at one arrival: cost 0 and an earlier moment", [(5, 0, 1), (4, 0, 0)], (6, 1))
arr("6 and 7: 7 comes first in the list", [(5, 0, 1), (4, 0, 1), (5, 2, 1)], (7, 1))
arr("6 and 7: 6 comes first in the list", [(5, 0, 1), (5, 2, 1), (4, 0, 1)], (6, 1))
arr("6 and 8 at one arrival", [(5, 0, 1), (12, 2, 1)], (6, 1))
arr("6 and 8: 8 comes first in the list", [(5, 0, 1), (12, 0, 1), (12, 2, 1)], (8, 1))
arr("6 and 9: an unknown server and a short finish list", [(5, 0, 1), (6, 2, 1)], (6, 1), F=1)
arr("7: earlier by one at place 1", [(5, 0, 1), (4, 0, 1)], (7, 1))
arr("7: earlier than the one listed before it, though not than the first", [(2, 0, 1), (6, 1, 1), (5, 0, 1)], (7, 2))
arr("7: moment 0 after 1 at place 3", [(0, 0, 1), (0, 0, 1), (1, 0, 1), (0, 0, 1)], (7, 3))
arr("equal moments are no refusal", [(5, 0, 1), (5, 1, 1), (5, 0, 1)], None)
arr("7 twice: the first counts", [(5, 0, 1), (4, 0, 1), (3, 0, 1)], (7, 1))
arr("7 and 8: both behind N, the second earlier: the first is 8", [(2, 0, 1), (14, 0, 1), (13, 0, 1)], (8, 1))
arr("7 and 8: 7 comes first in the list", [(5, 0, 1), (4, 0, 1), (12, 0, 1)], (7, 1))
arr("7 and 8: 8 comes first in the list", [(5, 0, 1), (12, 0, 1), (4, 0, 1)], (8, 1))
arr("7 and 9: an earlier moment and a short finish list", [(5, 0, 1), (4, 0, 1)], (7, 1), F=0)
arr("8: at N, place 2", [(0, 0, 1), (1, 1, 1), (12, 0, 1)], (8, 2))
arr("8: above N, place 1", [(0, 0, 1), (13, 1, 1)], (8, 1))
arr("8: 4294967295, place 1", [(0, 0, 1), (BIG - 1, 1, 1)], (8, 1))
arr("8: 2^31, place 0", [(2 ** 31, 1, 1)], (8, 0))
arr("moment N - 1 is accepted", [(0, 0, 1), (11, 1, 1)], None)
arr("8: the first arrival at N", [(12, 0, 1)], (8, 0))
arr("8 twice: the first counts", [(11, 0, 1), (12, 0, 1), (13, 0, 1)], (8, 1))
arr("8 and 9: at N and a short finish list", [(0, 0, 1), (12, 0, 1)], (8, 1), F=1)
arr("9: a finish list one shorter", [(0, 0, 1), (1, 0, 1), (2, 1, 1), (2, 0, 1)], (9, 0), F=3)
arr("a finish list of exactly m", [(0, 0, 1), (1, 0, 1), (2, 1, 1), (2, 0, 1)], None, F=4)

# --------------------------------------------------------------------- random


def random_table(rng, H, n):
    """n servers that share at most H (n is lowered if need be)."""
    divisors = [x for x in range(1, H + 1) if H % x == 0]
    room = H
    out = []
    for i in range(n):
        T = rng.choice(divisors)
        most = min(T, room // (H // T))
        if most < 1:
            T = H
            most = room
        if most < 1:
            break
        Q = rng.randint(1, max(1, (most + 1) // 2) if i + 1 < n else most)
        out.append((Q, T))
        room -= Q * (H // T)
    return out


def random_file(rng, big=1):
    while True:
        H = rng.choice([rng.randint(1, 60), rng.choice([6, 8, 12, 20, 24, 30, 36, 48, 60])])
        servers = random_table(rng, H, rng.randint(1, 6))
        if servers:
            break
    N = rng.randint(1, 80)
    m = rng.randint(0, 12)
    top = rng.choice([2, 4, 8, 20])
    last = rng.randint(1, N)
    arrivals = sorted((rng.randrange(last), rng.randrange(len(servers)), rng.randint(1, top)) for _ in range(m))
    # moments sorted, the rest in any order
    rest = [(s, c) for _, s, c in arrivals]
    rng.shuffle(rest)
    arrivals = [(a[0], s, c) for a, (s, c) in zip(arrivals, rest)]
    so = 24 + rng.choice([0, 0, 0, 1, 4, 7])
    ao = so + 8 * len(servers) + rng.choice([0, 0, 0, 2, 4, 9])
    length = ao + 12 * m + rng.choice([0, 0, 1, 5])
    return H, N, servers, arrivals, so, ao, length


def damage(rng, f):
    """One or two faults in a good file."""
    H, N, servers, arrivals, so, ao, length = f
    b = bytearray(pack(H, N, servers, arrivals, so=so, ao=ao, length=length))
    n, m = len(servers), len(arrivals)
    values = [0, 1, 2, 3, 5, 7, 23, 24, 25, 64, 65, N, N + 1, H, H + 1, n, m, 4097, 604801, 2419201,
              2 ** 31, 2 ** 32 - 1, 2 ** 32 - 12, 2 ** 32 - 8, len(b), len(b) - 12 * m, len(b) + 1]
    F = m
    for _ in range(rng.choice([1, 1, 2, 3])):
        what = rng.randrange(7)
        if what == 0:
            at = 4 * rng.randrange(6)
        elif what in (1, 2):
            at = so + 4 * rng.randrange(2 * n)
        elif what in (3, 4, 5) and m:
            at = ao + 4 * rng.randrange(3 * m)
        else:
            if rng.random() < 0.5 and m:
                F = rng.randrange(m)
            else:
                cut = rng.randint(1, min(len(b), 30))
                if len(b) - cut >= 24 or rng.random() < 0.3:
                    del b[len(b) - cut:]
            continue
        if at + 4 <= len(b):
            b[at:at + 4] = struct.pack("<I", rng.choice(values) % BIG)
    return bytes(b), F


for seed in range(60):
    rng = random.Random(1000 + seed)
    H, N, servers, arrivals, so, ao, length = random_file(rng)
    case("random accepted file, seed %d" % (1000 + seed),
         pack(H, N, servers, arrivals, so=so, ao=ao, length=length),
         rng.choice([0, 6, 16, 20, 24, 32, 40, 48]), len(arrivals) + rng.choice([0, 0, 1, 3]))
seed = 2000
made = 0
spread = {}
while made < 40:
    seed += 1
    rng = random.Random(seed)
    file, F = damage(rng, random_file(rng))
    lines = expected(R.run, R.server_line, file, 8, F)
    # at most three that the damage leaves harmless, and six of each refusal
    key = " ".join(lines[0].split()[:2])
    if spread.get(key, 0) == (3 if key == "accepted" else 6):
        continue
    spread[key] = spread.get(key, 0) + 1
    add("random damaged file, seed %d" % seed, file, 8, F, lines)
    made += 1

# ---------------------------------------------------------------------- large


def large():
    rng = random.Random(31)
    H = 7200
    divisors = [x for x in range(40, H + 1) if H % x == 0]
    servers = []
    for i in range(64):
        T = rng.choice(divisors)
        Q = max(1, T // 70)
        servers.append((Q, T))
    while R.shares(H, servers) > H:
        i = rng.randrange(64)
        servers[i] = (servers[i][0], H)
    moments = sorted(rng.randrange(20000) for _ in range(300))
    arrivals = [(t, rng.randrange(64), rng.randint(1, 140)) for t in moments]
    case("64 servers, 300 arrivals, N 20000", pack(H, 20000, servers, arrivals), 64, 300)

    rng = random.Random(32)
    servers = [(1, 128)] * 32 + [(1, 64)] * 32
    arrivals = [(t, (37 * t) % 64, 200) for t in range(64)]
    case("64 servers overrunning all the time, N 5000", pack(128, 5000, servers, arrivals), 64, 64)

    rng = random.Random(33)
    servers = [(2, 12), (3, 10), (4, 30), (5, 60), (9, 60)]
    moments = sorted(rng.randrange(8900) for _ in range(4096))
    arrivals = [(t, rng.randrange(5), rng.choice([1, 1, 1, 2, 2, 3, 4])) for t in moments]
    case("4,096 arrivals that end with the file at 65,536 bytes, N 9000",
         pack(60, 9000, servers, arrivals, ao=65536 - 49152, fill=0), 64, 4096)

    servers = [(302400, 604800), (151200, 302400)]
    arrivals = [(0, 0, 604800), (1, 1, 604800), (604800, 0, 302400), (2000000, 0, 1), (2000000, 1, 400000),
                (2419198, 0, 1), (2419199, 1, 1), (2419199, 0, 1)]
    case("N 2,419,200 with few segments", pack(604800, 2419200, servers, arrivals), 64, 9)

    jobs = [604800] * 3 + [295] * 2050
    case("N 2,419,200, one server, 2,053 jobs at moment 0: the total of the responses is above 2^32",
         pack(604800, 2419200, [(604800, 604800)], [(0, 0, x) for x in jobs]), 64, 2053,
         segs=[(604800 * i, 604800, 0, 604800 * (i + 1)) for i in range(3)] + [(1814400, 604750, 0, 2419200)],
         fin=[sum(jobs[:i + 1]) for i in range(2053)],
         rec={0: (2053, 2053, 3, 0, (4343319925, 2419150))})

    case("N 2,419,200, Q 1, T 604800, never stops: 2,419,200 segments, the last job ends at N",
         pack(604800, 2419200, [(1, 604800)], [(0, 0, 604800)] * 4), 64, 4, count=2419200,
         fin=[604800, 1209600, 1814400, 2419200], rec={0: (4, 4, 2419200, 0, (6048000, 2419200))})

    case("N 2,419,200, two servers with Q 1 in turn: each segment but the last is interrupted",
         pack(2, 2419200, [(1, 2), (1, 2)], [(0, 0, 604800), (0, 1, 604800)] * 3), 64, 6, count=2419200,
         fin=[1209599, 1209600, 2419199, 2419200, OPEN, OPEN],
         rec={0: (3, 2, 1209600, 1209600, (3628798, 2419199)), 1: (3, 2, 1209600, 1209599, (3628800, 2419200))})


if "--no-large" not in sys.argv:
    large()

FORMAT = """\
# Work files to run. A case is T F L W w1 .. wW, numbers between blanks and line ends.
# T and F: the places of the lent trace list, each 7 before the run, and of the finish list, each 9.
# L: the bytes of the file. W: how many 32-bit numbers follow, written low byte first from byte 0 on; every byte behind them is 170.
# The output of a case: accepted, or refused with number and place; the count of segments; all places of the two lists; a line for
# each record that is not blank. It is told by tests/reference/reference.py, which was written from the rules alone.
"""

if __name__ == "__main__":
    with open("stdin", "w") as f:
        f.write(FORMAT + "\n".join(script) + "\n")
    with open("stdout", "w") as f:
        for lines in answers:
            f.write("\n".join(lines) + "\n")
    print("%d cases" % len(answers))
    print(", ".join("%s: %d" % x for x in sorted(tally.items())))
