"""Problems of thirty-one kinds, three sizes each, made from a fixed seed, so that runs repeat: for `scripts/families`."""
import random


class Problem:
    """A 0-1 problem in the making; terms are (coefficient, variable)."""

    def __init__(self, seed):
        self.random, self.count, self.objective, self.rows = random.Random(seed), 0, None, []

    def variables(self, count):
        self.count += count
        return list(range(self.count - count + 1, self.count + 1))

    def at_least(self, terms, right):
        self.rows.append((terms, ">=", right))

    def at_most(self, terms, right):
        self.at_least([(-coefficient, variable) for coefficient, variable in terms], -right)

    def equal(self, terms, right):
        self.rows.append((terms, "=", right))

    def clause(self, literals):
        """3 is x3, and -3 its opposite."""
        self.at_least([(1 if it > 0 else -1, abs(it)) for it in literals], 1 - sum(it < 0 for it in literals))

    def some(self, variables):
        self.at_least([(1, it) for it in variables], 1)

    def few(self, variables, most=1):
        self.at_most([(1, it) for it in variables], most)

    def one(self, variables):
        self.equal([(1, it) for it in variables], 1)

    def text(self):
        line = lambda terms: " ".join(f"{coefficient:+d} x{variable}" for coefficient, variable in terms)
        goal = [f"min: {line(self.objective)} ;"] if self.objective else []
        return "\n".join([*goal, *(f"{line(terms)} {relation} {right} ;" for terms, relation, right in self.rows), ""])


def points(p, count, side):
    return [(p.random.randint(0, side), p.random.randint(0, side)) for _ in range(count)]


def distance(one, other):
    return abs(one[0] - other[0]) + abs(one[1] - other[1])


def binpack(p, n):
    weights = [p.random.randint(20, 60) for _ in range(n)]
    bins = p.variables(sum(weights) * 3 // 200 + 2)
    put = [p.variables(len(bins)) for _ in range(n)]
    p.objective = [(1, it) for it in bins]
    for places in put:
        p.one(places)
    for at, it in enumerate(bins):
        p.at_least([(100, it)] + [(-weights[item], put[item][at]) for item in range(n)], 0)
    for one, other in zip(bins, bins[1:]):
        p.clause([one, -other])


def mknap(p, n):
    take = p.variables(n)
    p.objective = [(-p.random.randint(100, 999), it) for it in take]
    for _ in range(5):
        weights = [p.random.randint(10, 99) for _ in range(n)]
        p.at_most(list(zip(weights, take)), sum(weights) // 2)


def independent(p, n, density):
    take = p.variables(n)
    p.objective = [(-1, it) for it in take]
    for at in range(n):
        for other in take[:at]:
            if p.random.random() < density:
                p.clause([-take[at], -other])


def indset(p, n):
    independent(p, n, 0.1)


def clique(p, n):
    independent(p, n, 0.5)


def gap(p, n):
    agents = 5
    does = [p.variables(n) for _ in range(agents)]
    weights = [[p.random.randint(5, 25) for _ in range(n)] for _ in range(agents)]
    p.objective = [(p.random.randint(10, 50), it) for row in does for it in row]
    for job in range(n):
        p.one([row[job] for row in does])
    for row, loads in zip(does, weights):
        p.at_most(list(zip(loads, row)), int(0.8 * sum(loads) / agents))


def serve(p, prices, served, far):
    """Each of some customers is served by a place that is open."""
    opened = p.variables(len(prices))
    serves = [p.variables(len(prices)) for _ in range(served)]
    p.objective = [(price, it) for price, it in zip(prices, opened) if price]
    p.objective += [(far(at, place), it) for at, row in enumerate(serves) for place, it in enumerate(row)]
    for row in serves:
        p.some(row)
        for it, place in zip(row, opened):
            p.clause([-it, place])
    return opened


def facility(p, n):
    customers, places = points(p, n, 100), points(p, n // 2, 100)
    serve(p, [p.random.randint(60, 120) for _ in places], n, lambda at, to: distance(customers[at], places[to]))


def kmedian(p, n):
    where = points(p, n, 50)
    p.few(serve(p, [0] * n, n, lambda at, to: distance(where[at], where[to])), max(2, n // 6))


def setpack(p, n):
    take, rows = p.variables(n), [[] for _ in range(n // 2)]
    p.objective = [(-p.random.randint(10, 40), it) for it in take]
    for it in take:
        for row in p.random.sample(rows, p.random.randint(2, 5)):
            row.append(it)
    for row in rows:
        p.few(row)


def violated(p, n, size, clauses):
    values = p.variables(n)
    p.objective = []
    for _ in range(clauses):
        literals = [it * p.random.choice((1, -1)) for it in p.random.sample(values, size)]
        (broken,) = p.variables(1)
        p.objective.append((p.random.randint(1, 5), broken))
        p.clause([*literals, broken])


def maxsat(p, n):
    violated(p, n, 3, 5 * n)


def max2sat(p, n):
    violated(p, n, 2, 4 * n)


def tripled(triples, n):
    """A Steiner triple system of three times as many points."""
    for at in range(3):
        yield from ((i + at * n, j + at * n, k + at * n) for i, j, k in triples)
    yield from ((i, i + n, i + 2 * n) for i in range(n))
    for i, j, k in triples:
        for one, two, three in ((i, j, k), (i, k, j), (j, i, k), (j, k, i), (k, i, j), (k, j, i)):
            yield one, two + n, three + 2 * n


def stein(p, n):
    triples, size = [(0, 1, 2)], 3
    while size < n:
        triples, size = list(tripled(triples, size)), 3 * size
    take = p.variables(size)
    p.objective = [(1, it) for it in take]
    for triple in triples:
        p.some([take[it] for it in triple])


def queens(p, n):
    rows = [p.variables(n) for _ in range(n)]
    for row in [*rows, *map(list, zip(*rows))]:
        p.one(row)
    for at in range(-n + 1, n):
        p.few([rows[i][i - at] for i in range(n) if 0 <= i - at < n])
    for at in range(2 * n - 1):
        p.few([rows[i][at - i] for i in range(n) if 0 <= at - i < n])


def latin(p, n):
    cells = [[p.variables(n) for _ in range(n)] for _ in range(n)]
    shuffled = lambda: p.random.sample(range(n), n)
    symbols, rows, columns = shuffled(), shuffled(), shuffled()
    for i in range(n):
        for j in range(n):
            p.one(cells[i][j])
            p.one([cells[i][k][j] for k in range(n)])
            p.one([cells[k][i][j] for k in range(n)])
            if p.random.random() < 0.42:
                p.some([cells[i][j][symbols[(rows[i] + columns[j]) % n]]])


def split(p, n):
    take = p.variables(n)
    for _ in range(3):
        weights = [p.random.randint(0, 99) for _ in range(n)]
        p.equal(list(zip(weights, take)), sum(weights) // 2)


def pigeons(p, n):
    """Two in a hole, and one too many."""
    sits = [p.variables(n) for _ in range(2 * n + 1)]
    for holes in sits:
        p.some(holes)
    for hole in zip(*sits):
        p.few(hole, 2)


def exclusive(p, one, other):
    (out,) = p.variables(1)
    for literals in ((-one, -other, -out), (one, other, -out), (-one, other, out), (one, -other, out)):
        p.clause(literals)
    return out


def carry(p, inputs):
    (out,) = p.variables(1)
    for one, other in ((0, 1), (0, 2), (1, 2)):
        p.clause([-inputs[one], -inputs[other], out])
        p.clause([inputs[one], inputs[other], -out])
    return out


def total(p, left, right):
    (carried,) = p.variables(1)
    p.clause([-carried])
    out = []
    for one, other in zip(left, right):
        out.append(exclusive(p, exclusive(p, one, other), carried))
        carried = carry(p, (one, other, carried))
    return out


def adders(p, n):
    """(a + b) + c and a + (b + c) differ in some bit."""
    one, two, three = (p.variables(n) for _ in range(3))
    sums = total(p, total(p, one, two), three), total(p, one, total(p, two, three))
    p.some([exclusive(p, *bits) for bits in zip(*sums)])


def sat3(p, n):
    values = p.variables(n)
    for _ in range(int(4.26 * n)):
        p.clause([it * p.random.choice((1, -1)) for it in p.random.sample(values, 3)])


def jobs(p, n):
    lengths = [p.random.randint(3, 30) for _ in range(n)]
    does = [p.variables(4) for _ in range(n)]
    bits = p.variables((sum(lengths) // 4 + max(lengths)).bit_length())
    span = [(1 << at, it) for at, it in enumerate(bits)]
    p.objective = span
    for row in does:
        p.one(row)
    for machine in range(4):
        p.at_least(span + [(-lengths[job], does[job][machine]) for job in range(n)], 0)


def setcover(p, n):
    take = p.variables(2 * n)
    p.objective = [(p.random.randint(1, 100), it) for it in take]
    for _ in range(n):
        p.some(p.random.sample(take, max(3, n // 12)))


def maxcut(p, n):
    """Edges of prices between two sides."""
    side = p.variables(n)
    p.objective = []
    for at in range(n):
        for other in side[:at]:
            if p.random.random() < 4 / n:
                (cut,) = p.variables(1)
                p.objective.append((-p.random.randint(1, 9), cut))
                p.clause([-cut, side[at], other])
                p.clause([-cut, -side[at], -other])


def axial(p, n):
    """Triples of a worker, a job and a place, each in one."""
    takes = [[p.variables(n) for _ in range(n)] for _ in range(n)]
    p.objective = [(p.random.randint(1, 100), it) for plane in takes for row in plane for it in row]
    for at in range(n):
        p.one([it for row in takes[at] for it in row])
        p.one([it for plane in takes for it in plane[at]])
        p.one([row[at] for plane in takes for row in plane])


def lots(p, n):
    """What is made in a period costs a setup, and what is made early costs its store."""
    wanted = [p.random.randint(3, 20) for _ in range(n)]
    setup, made = p.variables(n), [p.variables(5) for _ in range(n)]
    p.objective = [(p.random.randint(30, 60), it) for it in setup]
    for period, bits in enumerate(made):
        for at, it in enumerate(bits):
            p.clause([-it, setup[period]])
            p.objective.append(((1 << at) * (n - period), it))
        p.at_least([(1 << at, it) for row in made[: period + 1] for at, it in enumerate(row)], sum(wanted[: period + 1]))


def quadratic(p, n):
    """Plants at places, between which something flows."""
    apart = [[p.random.randint(1, 9) for _ in range(n)] for _ in range(n)]
    flow = [[p.random.choice((0, 0, p.random.randint(1, 9))) for _ in range(n)] for _ in range(n)]
    stands = [p.variables(n) for _ in range(n)]
    p.objective = []
    for row in [*stands, *map(list, zip(*stands))]:
        p.one(row)
    for one, two in ((i, j) for i in range(n) for j in range(n) if i != j and flow[i][j]):
        for here, there in ((i, j) for i in range(n) for j in range(n) if i != j):
            (both,) = p.variables(1)
            p.objective.append((flow[one][two] * apart[here][there], both))
            p.clause([-stands[one][here], -stands[two][there], both])


def network(p, n):
    """Arcs are built, and loads go over them."""
    where = points(p, n, 30)
    arcs = [(i, j) for i in range(n) for j in range(n) if i != j and distance(where[i], where[j]) < 18]
    length = {arc: distance(where[arc[0]], where[arc[1]]) for arc in arcs}
    built = dict(zip(arcs, p.variables(len(arcs))))
    p.objective = [(3 * length[arc] + 5, built[arc]) for arc in arcs]
    for _ in range(n // 2):
        source, target = p.random.sample(range(n), 2)
        goes = dict(zip(arcs, p.variables(len(arcs))))
        for arc in arcs:
            p.clause([-goes[arc], built[arc]])
            p.objective += [(length[arc], goes[arc])] if length[arc] else []
        for node in range(n):
            leaves = [(1, goes[arc]) for arc in arcs if arc[0] == node] + [(-1, goes[arc]) for arc in arcs if arc[1] == node]
            p.equal(leaves, (node == source) - (node == target))


def rota(p, n):
    """Fourteen days of three shifts, none early after a late one, at most five in seven days and ten in all."""
    works = [[p.variables(3) for _ in range(14)] for _ in range(n)]
    p.objective = [(p.random.randint(1, 5), it) for days in works for shifts in days for it in shifts]
    for days in works:
        for shifts, after in zip(days, days[1:]):
            p.clause([-shifts[2], -after[0]])
        for shifts in days:
            p.few(shifts)
        p.few([it for shifts in days for it in shifts], 10)
        for first in range(8):
            p.few([it for shifts in days[first : first + 7] for it in shifts], 5)
    for team in zip(*works):
        for shift in zip(*team):
            p.at_least([(1, it) for it in shift], max(1, n // 5))


def colours(p, n):
    """A graph of three tenths of the edges, with as few of eight colours as may be, taken in order."""
    has, used = [p.variables(8) for _ in range(n)], p.variables(8)
    p.objective = [(1, it) for it in used]
    for at, row in enumerate(has):
        p.one(row)
        for it, colour in zip(row, used):
            p.clause([-it, colour])
        for other in has[:at]:
            if p.random.random() < 0.3:
                for one, two in zip(row, other):
                    p.clause([-one, -two])
    for one, other in zip(used, used[1:]):
        p.clause([one, -other])


def knights(p, n):
    """Knights of prices on a board, none of which attacks another."""
    board = [p.variables(n) for _ in range(n)]
    p.objective = [(-p.random.randint(1, 5), it) for row in board for it in row]
    for i in range(n):
        for j in range(n):
            for down, along in ((1, 2), (2, 1), (1, -2), (2, -1)):
                if i + down < n and 0 <= j + along < n:
                    p.clause([-board[i][j], -board[i + down][j + along]])


def coverage(p, n):
    """A sixth of some sets, which cover what is dearest."""
    sets = p.variables(n)
    p.objective = []
    for it in p.variables(2 * n):
        p.clause([-it, *p.random.sample(sets, 3)])
        p.objective.append((-p.random.randint(1, 9), it))
    p.few(sets, n // 6)


def tour(p, n):
    """A round trip, as who comes when."""
    where, comes = points(p, n, 50), [p.variables(n) for _ in range(n)]
    p.objective = []
    for row in [*comes, *map(list, zip(*comes))]:
        p.one(row)
    p.clause([comes[0][0]])
    for here, there in ((i, j) for i in range(n) for j in range(n) if i != j):
        (goes,) = p.variables(1)
        p.objective.append((max(1, distance(where[here], where[there])), goes))
        for at in range(n):
            p.clause([-comes[here][at], -comes[there][(at + 1) % n], goes])


def choices(p, n):
    """One of six of each kind, within three budgets."""
    takes = [p.variables(6) for _ in range(n)]
    p.objective = [(-p.random.randint(1, 99), it) for row in takes for it in row]
    for row in takes:
        p.one(row)
    for _ in range(3):
        p.at_most([(p.random.randint(1, 50), it) for row in takes for it in row], 20 * n)


def crowd(p, n):
    """Three who walk on a board of six by six for n steps, never two at a place, each soon at its goal."""
    stands = [[p.variables(36) for _ in range(n)] for _ in range(3)]
    p.objective = []
    for steps in stands:
        start, goal = p.random.sample(range(36), 2)
        p.clause([steps[0][start]])
        p.objective += [(-1, places[goal]) for places in steps]
        for places in steps:
            p.one(places)
        for places, after in zip(steps, steps[1:]):
            for at, it in enumerate(places):
                near = [to for to in range(36) if abs(to // 6 - at // 6) + abs(to % 6 - at % 6) <= 1]
                p.clause([-it, *(after[to] for to in near)])
    for step in zip(*stands):
        for place in zip(*step):
            p.few(place)


FAMILIES = {
    binpack: (8, 12, 16), mknap: (30, 50, 70), indset: (80, 120, 160), clique: (60, 100, 140), gap: (20, 30, 40), facility: (20, 40, 60),
    kmedian: (15, 25, 35), setpack: (60, 120, 200), maxsat: (20, 30, 40), max2sat: (30, 50, 70), stein: (9, 27, 81), queens: (8, 16, 24),
    latin: (10, 15, 20), split: (15, 20, 25), pigeons: (6, 12, 20), adders: (4, 6, 8), sat3: (100, 150, 200), jobs: (8, 12, 16),
    setcover: (60, 100, 140), maxcut: (20, 40, 60), axial: (6, 8, 10), lots: (10, 15, 20), quadratic: (5, 6, 7), network: (8, 10, 12),
    rota: (10, 16, 24), colours: (20, 30, 40), knights: (8, 12, 16), coverage: (30, 60, 90), tour: (6, 8, 10), choices: (20, 40, 80),
    crowd: (6, 8, 10),
}  # fmt: skip
