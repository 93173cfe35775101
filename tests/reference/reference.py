"""The rules (document 01, with W-201 of document 02) in Python, tick by tick, written from the documents alone: what a run of a work
file has to answer.

run(file, trace, finishes) -> (verdict, segment count, 64 records)
  verdict is ("refused", number, place) or ("accepted",)
  a record is Record(arrived, finished, postponed, interrupted, response),
  response None or (total, longest).
  trace and finishes are the lent lists; they are altered in place on an
  accepted run only.
report(file) -> the text of the day report.
"""
from array import array
from collections import namedtuple

OPEN = 4294967295
Record = namedtuple("Record", "arrived finished postponed interrupted response")
BLANK = Record(0, 0, 0, 0, None)


def u32(file, at):
    return int.from_bytes(file[at:at + 4], "little")


def header(file):
    """H, N, n, server offset, m, arrival offset"""
    return tuple(u32(file, 4 * i) for i in range(6))


def read_servers(file):
    H, N, n, so, m, ao = header(file)
    return [(u32(file, so + 8 * i), u32(file, so + 8 * i + 4)) for i in range(n)]


def read_arrivals(file):
    H, N, n, so, m, ao = header(file)
    return [(u32(file, ao + 12 * k), u32(file, ao + 12 * k + 4), u32(file, ao + 12 * k + 8))
            for k in range(m)]


def shares(H, servers):
    return sum(Q * (H // T) for Q, T in servers)


def bad_server(H, Q, T):
    return T == 0 or H % T != 0 or Q == 0 or Q > T


def judge(file, finish_places):
    """None when accepted, else (number, place)."""
    L = len(file)
    if L < 24 or L > 65536:
        return (1, 0)
    H, N, n, so, m, ao = header(file)
    if H < 1 or H > 604800 or N > 2419200 or n > 64 or m > 4096:
        return (2, 0)
    if so < 24 or ao < so + 8 * n or ao + 12 * m > L:
        return (3, 0)
    servers = read_servers(file)
    for i, (Q, T) in enumerate(servers):
        if bad_server(H, Q, T):
            return (4, i)
    if shares(H, servers) > H:
        return (5, 0)
    before = 0
    for k, (moment, server, cost) in enumerate(read_arrivals(file)):
        if server >= n or cost < 1 or cost > 604800:
            return (6, k)
        if moment < before:
            return (7, k)
        if moment >= N:
            return (8, k)
        before = moment
    if finish_places < m:
        return (9, 0)
    return None


def wake(Q, T, c, d, t):
    """An idle server gets work at t: the new (c, d)."""
    if c * T >= (d - t) * Q or d <= t:
        return (Q, t + T)
    return (c, d)


def run(file, trace, finishes):
    refusal = judge(file, len(finishes))
    if refusal is not None:
        return ("refused",) + refusal, 0, [BLANK] * 64

    H, N, n, so, m, ao = header(file)
    servers = read_servers(file)
    arrivals = read_arrivals(file)

    c = [0] * n
    d = [0] * n
    w = [0] * n
    postponed = [0] * n
    served = [0] * n              # ticks served to each server so far
    jobs = [[] for _ in range(n)]  # per server: (arrival number, sum of costs up to it)
    for k, (moment, s, cost) in enumerate(arrivals):
        before = jobs[s][-1][1] if jobs[s] else 0
        jobs[s].append((k, before + cost))
    done = [0] * n                # how many jobs of each server have finished
    finish = [OPEN] * m

    # For every tick: who ran (-1 when idle), under which deadline, what was
    # still waiting for it after step 3.
    ran = array("q", [-1]) * N
    under = array("q", [0]) * N
    left = array("q", [0]) * N

    coming = 0                    # next arrival not yet taken
    numbers = range(n)
    for t in range(N):
        # 1. arrivals of t in list order
        while coming < m and arrivals[coming][0] == t:
            moment, s, cost = arrivals[coming]
            if w[s] == 0:
                Q, T = servers[s]
                c[s], d[s] = wake(Q, T, c[s], d[s], t)
            w[s] += cost
            coming += 1
        # 2. earliest deadline, equal ones to the lower number
        r = -1
        for i in numbers:
            if w[i] > 0 and (r == -1 or d[i] < d[r]):
                r = i
        if r == -1:
            continue
        # 3. the running server
        ran[t] = r
        under[t] = d[r]
        w[r] -= 1
        c[r] -= 1
        if c[r] == 0:
            Q, T = servers[r]
            c[r] = Q
            d[r] += T
            postponed[r] += 1
        left[t] = w[r]
        # 4. the clock is t + 1
        served[r] += 1
        k, needed = jobs[r][done[r]]
        if served[r] == needed:
            finish[k] = t + 1
            done[r] += 1

    # The segments: longest stretches of one server under one deadline.
    room = len(trace) // 4
    count = 0
    interrupted = [0] * n
    t = 0
    while t < N:
        if ran[t] == -1:
            t += 1
            continue
        end = t + 1
        while end < N and ran[end] == ran[t] and under[end] == under[t]:
            end += 1
        if count < room:
            trace[4 * count:4 * count + 4] = [t, end - t, ran[t], under[t]]
        count += 1
        # W-201: it ends before N with work of its server waiting, and the very next tick goes to another server; -1 is an idle tick
        if end < N and left[end - 1] > 0 and ran[end] not in (-1, ran[t]):
            interrupted[ran[t]] += 1
        t = end

    for k in range(m):
        finishes[k] = finish[k]

    records = []
    for i in range(64):
        if i >= n:
            records.append(BLANK)
            continue
        answers = [finish[k] - arrivals[k][0] for k, _ in jobs[i] if finish[k] != OPEN]
        response = (sum(answers), max(answers)) if answers else None
        records.append(Record(len(jobs[i]), len(answers), postponed[i], interrupted[i], response))
    return ("accepted",), count, records


def server_line(i, r):
    total, longest = ("-", "-") if r.response is None else r.response
    return "server %d arrived %d finished %d total %s longest %s postponed %d interrupted %d" % (
        i, r.arrived, r.finished, total, longest, r.postponed, r.interrupted)


def report(file):
    """The day report, whole (a trace of 8,192 numbers is lent)."""
    trace = [0] * 8192
    finishes = [0] * 4096
    verdict, count, records = run(file, trace, finishes)
    if verdict[0] == "refused":
        return "refused %d %d\n" % verdict[1:]
    H, N, n, so, m, ao = header(file)
    out = ["admitted %d of %d" % (shares(H, read_servers(file)), H)]
    shown = min(count, 2048)
    for s in range(shown):
        out.append("segment %d %d %d %d" % tuple(trace[4 * s:4 * s + 4]))
    out.append("segments %d shown %d" % (count, shown))
    for k, (moment, server, cost) in enumerate(read_arrivals(file)):
        if finishes[k] == OPEN:
            out.append("job %d %d %d open -" % (k, server, moment))
        else:
            out.append("job %d %d %d %d %d" % (k, server, moment, finishes[k], finishes[k] - moment))
    for i in range(n):
        out.append(server_line(i, records[i]))
    return "\n".join(out) + "\n"


if __name__ == "__main__":
    import sys
    sys.stdout.write(report(sys.stdin.buffer.read(65537)))
