#!/usr/bin/env python3
"""Writes crates/settlings/stdout: what the program `settlings` is expected to print.

It makes 612 networks, as the dice in make_cases.py draw them, settles each in up to three calls with changes between
them, drains it, and settles it once more. The routes come from a plain model of its own. The program draws the same
numbers in the same order, so the two must agree in every line. Every run writes the same file. It needs the Python
library networkx.

A line has the number of the network, its kind, its junctions and reaches; how many routes were pushed in all, their
litres, and a checksum of the steps and of what was carried; the bottleneck in the end: its sum, how many reaches cross
it, and a checksum of all that was answered when a bottleneck was asked for, before and after each settling: sum, number
and marks, or the number of the refusal; the same six for the network once drained; and whether all that the program
compares was the same.

Litres and bottlenecks do not rest on the model alone. networkx, a library made elsewhere, answers with the most that can go from
the intake to the outfall, and with the least cut. This tool stops with a message, and writes nothing, where

- the litres of a settling that leaves no route are not what networkx finds for the headrooms before it, or a settling
  that leaves a route has as many litres as that,
- the litres in all of a network that began dry are not what networkx finds for its limits; in the lines of those, and
  of all the drained networks, stands what networkx found,
- the most that can go and the least cut differ,
- a route is not as short as networkx finds that one can be, or there is none where networkx finds one,
- in a small network, a route is not the first of all the shortest routes that networkx lists,
- the near side is not what networkx reaches by the open steps, or the outfall is among it though no route is left, or
  is not though one is,
- in a network that began dry, the sum of a bottleneck is not the least cut that networkx finds for the limits, or its
  near side is not what networkx reaches by what a flow of its own, found for the limits, leaves open.
"""

import sys
from pathlib import Path

import networkx

sys.dont_write_bytecode = True  # leaves no __pycache__ beside the tools
from make_cases import Dice as CaseDice  # noqa: E402

FOLDER = Path(__file__).resolve().parent.parent / "crates" / "settlings"

KINDS = ("any", "low", "high", "ahead", "close", "carrying", "chain", "grid", "matching", "tree", "dense",
         "crossed")

NETWORKS = 612
FIRST_MIDDLE = 552
FIRST_LARGE = 600
SMALL, MIDDLE, LARGE = range(3)

NETWORK_SEED = 5000
TRIAL_SEED = 6000
WHOLE_BUDGET = 300_000
MOST_BUDGETS = (5, 20, 80)  # of a settling that may leave routes, by scale

HIGHEST_LIMIT = 1_000_000


class Dice(CaseDice):
    def up_to(self, most):
        return self.below(most + 1)

    def one_in(self, many):
        return self.below(many) == 0


# ---- The networks. ---------------------------------------------------------------------------------------------------


class Network:
    """Junctions 0 to n - 1, and the reaches as four lists. Step 2k goes along reach k, step 2k + 1 goes back."""

    def __init__(self, n, intake, outfall):
        assert 2 <= n <= 256 and intake < n and outfall < n and intake != outfall
        self.n, self.intake, self.outfall = n, intake, outfall
        self.tails, self.heads, self.limits, self.carried = [], [], [], []
        self.leaving = [[] for _ in range(n)]  # for each junction, the steps that begin there, in their order

    @property
    def m(self):
        return len(self.tails)

    def lay(self, tail, head, limit):
        assert tail < self.n and head < self.n and tail != head and 0 <= limit <= HIGHEST_LIMIT and self.m < 1024
        self.leaving[tail].append(2 * self.m)
        self.leaving[head].append(2 * self.m + 1)
        self.tails.append(tail)
        self.heads.append(head)
        self.limits.append(limit)
        self.carried.append(0)

    def begin(self, step):
        return self.heads[step // 2] if step % 2 else self.tails[step // 2]

    def finish(self, step):
        return self.tails[step // 2] if step % 2 else self.heads[step // 2]

    def headroom(self, step):
        k = step // 2
        return self.carried[k] if step % 2 else self.limits[k] - self.carried[k]

    def push(self, route):
        """The least headroom more along each step of a route."""
        litres = min(self.headroom(step) for step in route)
        for step in route:
            self.carried[step // 2] += -litres if step % 2 else litres
        return litres

    def carry(self, k, amount):
        if k < self.m and amount <= self.limits[k]:
            self.carried[k] = amount

    def limit(self, k, limit):
        if k < self.m and self.carried[k] <= limit <= HIGHEST_LIMIT:
            self.limits[k] = limit

    def drain(self):
        self.carried = [0] * self.m

    def near_side(self):
        """For each junction, whether open steps lead to it from the intake."""
        near, pending = [False] * self.n, [self.intake]
        near[self.intake] = True
        while pending:
            at = pending.pop()
            for step in self.leaving[at]:
                if self.headroom(step) > 0 and not near[self.finish(step)]:
                    near[self.finish(step)] = True
                    pending.append(self.finish(step))
        return near


def any_ends(dice, n):
    """Any two different ones of n junctions."""
    first = dice.below(n)
    other = dice.below(n - 1)
    return first, other if other < first else other + 1


def ahead_ends(dice, n):
    """Two different junctions, of which seven times in eight the first is the lower one."""
    low, high = sorted(any_ends(dice, n))
    return (high, low) if dice.one_in(8) else (low, high)


def close_ends(dice, n):
    """Two junctions whose numbers differ by 1 or 2, of which three times in four the first is the lower one."""
    low = dice.below(n - 1)
    high = min(low + 1 + dice.below(2), n - 1)
    return (high, low) if dice.one_in(4) else (low, high)


def drawn_ends(dice, kind, n, outer):
    ends = {"ahead": ahead_ends, "close": close_ends}.get(kind, any_ends)(dice, n)
    (tail, head), (intake, outfall), sort = ends, outer, dice.up_to(15)
    if sort == 0 and head != intake:
        return intake, head
    if sort == 1 and tail != outfall:
        return tail, outfall
    return tail, head


def drawn_limit(dice, kind):
    if kind != "close" and dice.one_in(8):
        return 0
    if kind == "high":
        return HIGHEST_LIMIT - dice.up_to(1000)
    return 1 + dice.up_to(1 if kind == "low" else 19)


def drawn_network(dice, kind, scale):
    if scale == SMALL:
        n = 2 + dice.below(11)
        m = dice.below(41)
    elif scale == MIDDLE:
        n = 20 + dice.below(41)
        m = 60 + dice.below(241)
    else:
        n, m = 256, 1024
    outer = (0, n - 1) if kind in ("ahead", "close") else any_ends(dice, n)
    network = Network(n, *outer)
    in_line = min(m, n - 1) if kind == "close" else 0
    for v in range(in_line):
        network.lay(v, v + 1, drawn_limit(dice, kind))
    for _ in range(in_line, m):
        ends = drawn_ends(dice, kind, n, outer)
        network.lay(*ends, drawn_limit(dice, kind))
    return network


def chain(dice, scale):
    """Layers of two junctions, with reaches to the next layer, and small ones that leave one to seven layers out."""
    layers = (6, 30, 128)[scale]
    last = 2 * layers - 1
    network = Network(2 * layers, 0, last)
    network.lay(0, 1, 100)
    network.lay(last - 1, last, 100)
    for layer in range(layers - 1):
        for tail in range(2):
            for head in range(2):
                network.lay(2 * layer + tail, 2 * layer + 2 + head, 30 + dice.up_to(9))
    for _ in range((10, 120, 514)[scale]):
        layer = dice.below(layers - 2)
        after = min(layer + 2 + dice.below(7), layers - 1)
        tail = 2 * layer + dice.below(2)
        head = 2 * after + dice.below(2)
        network.lay(tail, head, 1 + dice.up_to(2))
    return network


def grid(dice, scale):
    """A square. The intake, in a corner, feeds all of its side, and all of the other side feeds the outfall."""
    side = (3, 7, 16)[scale]
    network = Network(side * side, 0, side * side - 1)

    def lay_both(one, other):
        network.lay(one, other, 1 + dice.up_to(19))
        network.lay(other, one, 1 + dice.up_to(19))

    for i in range(side):
        for j in range(1, side):
            lay_both(side * i + j - 1, side * i + j)
            lay_both(side * (j - 1) + i, side * j + i)
    for row in range(1, side):
        network.lay(0, side * row, 20)
        network.lay(side * row - 1, side * side - 1, 20)
    return network


def matching(dice, scale):
    """A left side and a right side of as many junctions, with three reaches from each on the left to the right ones
    near it. All limits are 1."""
    side = (5, 29, 127)[scale]
    outfall = 2 * side + 1
    network = Network(2 * side + 2, 0, outfall)
    for left in range(1, side + 1):
        network.lay(0, left, 1)
        network.lay(side + left, outfall, 1)
        for _ in range(3):
            right = (left - 1 + dice.below(3)) % side
            network.lay(left, side + 1 + right, 1)
    return network


def tree(dice, scale):
    """Each junction is fed by one of the eight before it, and has a small reach to the outfall."""
    outfall = (11, 59, 255)[scale]
    network = Network(outfall + 1, 0, outfall)
    for v in range(1, outfall):
        feeder = v - 1 - dice.below(min(v, 8))
        network.lay(feeder, v, 1 + dice.below(2 * (outfall - v)))
        network.lay(v, outfall, dice.up_to(3))
    return network


def dense(dice, scale):
    """A reach from every junction but the last to every other one."""
    last = (5, 16, 32)[scale]
    network = Network(last + 1, *any_ends(dice, last))
    for tail in range(last):
        for head in range(last + 1):
            if tail != head:
                network.lay(tail, head, dice.up_to(20))
    return network


# How far behind the first junction of a group the ends of its reaches are. Its last junction is the next one's first.
GROUP = ((0, 1), (1, 2), (2, 7), (0, 3), (3, 4), (4, 2), (1, 5), (5, 6), (6, 7))


def crossed(dice, scale):
    """Groups in a row, with small reaches from some junctions to later ones. The shortest way through a group takes a
    reach that two longer ways do without."""
    count = (1, 8, 36)[scale]
    last = 7 * count
    network = Network(last + 1, 0, last)
    for group in range(count):
        for tail, head in GROUP:
            network.lay(7 * group + tail, 7 * group + head, 4 + dice.up_to(4))
    for _ in range(4 * count):
        tail = dice.below(last)
        head = min(tail + 1 + dice.below(9), last)
        network.lay(tail, head, 1 + dice.up_to(1))
    return network


PLANNED = {"chain": chain, "grid": grid, "matching": matching, "tree": tree, "dense": dense, "crossed": crossed}


def make(number):
    dice = Dice(NETWORK_SEED + number)
    kind, scale = form(number)
    if kind in PLANNED:
        return PLANNED[kind](dice, scale)
    network = drawn_network(dice, kind, scale)
    if kind == "carrying":
        for k in range(network.m):
            if dice.one_in(2):
                network.carry(k, dice.up_to(network.limits[k]))
    return network


def form(number):
    scale = SMALL if number < FIRST_MIDDLE else MIDDLE if number < FIRST_LARGE else LARGE
    return KINDS[number % len(KINDS)], scale


# ---- The model of settling. ------------------------------------------------------------------------------------------


def first_shortest(network):
    """The first shortest route, or None.

    It goes from the intake on, looks at junctions in the order in which they were found, and at the steps of each in
    the order of their numbers. So junctions at one distance are found in the order of the first shortest walks to them.
    """
    by = {network.intake: None}  # for each junction that was found, the step by which it was found
    found = [network.intake]
    for at in found:
        for step in network.leaving[at]:
            finish = network.finish(step)
            if finish not in by and network.headroom(step) > 0:
                by[finish] = step
                found.append(finish)
    if network.outfall not in by:
        return None
    route, at = [], network.outfall
    while at != network.intake:
        route.append(by[at])
        at = network.begin(by[at])
    return route[::-1]


class Checksum:
    def __init__(self):
        self.value = 0

    def add(self, *numbers):
        for number in numbers:
            self.value = (self.value * 1_000_003 + number + 1) % 2**64


class Figures:
    """What settlings of one network came to."""

    def __init__(self):
        self.routes = self.litres = 0
        self.checksum = Checksum()
        self.sum = self.crossing = 0  # of the last bottleneck that was answered
        self.cuts = Checksum()

    def __str__(self):
        settled = f"{self.routes} {self.litres} {self.checksum.value:016x}"
        return f"{settled}, bottleneck {self.sum} {self.crossing} {self.cuts.value:016x}"


# ---- What networkx says. ---------------------------------------------------------------------------------------------


def graph(network, capacities):
    """A graph of the steps, each with its capacity; those between the same two junctions are summed, and those of
    capacity 0 left out."""
    edges = networkx.DiGraph()
    edges.add_nodes_from(range(network.n))
    for step, capacity in enumerate(capacities):
        if capacity > 0:
            begin, finish = network.begin(step), network.finish(step)
            before = edges.get_edge_data(begin, finish, {"capacity": 0})["capacity"]
            edges.add_edge(begin, finish, capacity=before + capacity)
    return edges


def headrooms(network):
    return [network.headroom(step) for step in range(2 * network.m)]


def limits(network):
    return [capacity for limit in network.limits for capacity in (limit, 0)]


def most_litres(network, capacities):
    """The most that can go from the intake to the outfall, which has to be the least cut as well."""
    edges = graph(network, capacities)
    most = networkx.maximum_flow_value(edges, network.intake, network.outfall)
    least_cut = networkx.minimum_cut_value(edges, network.intake, network.outfall)
    if most != least_cut:
        sys.exit(f"networkx finds that {most} can go, and a least cut of {least_cut}")
    return most


def check_route(number, network, route):
    """Compares a route with what networkx finds by the open steps."""
    edges = graph(network, headrooms(network))
    outer = network.intake, network.outfall
    least = networkx.shortest_path_length(edges, *outer) if networkx.has_path(edges, *outer) else None
    if least != (None if route is None else len(route)):
        sys.exit(f"network {number}: the route {route}, but networkx finds that {least} steps lead to the outfall")
    if route is None or form(number)[1] != SMALL:
        return
    first_steps = {}  # for two junctions, the first open step from one to the other
    for step in reversed(range(2 * network.m)):
        if network.headroom(step) > 0:
            first_steps[network.begin(step), network.finish(step)] = step
    shortest = networkx.all_shortest_paths(edges, *outer)
    first = min([first_steps[pair] for pair in zip(path, path[1:])] for path in shortest)
    if first != route:
        sys.exit(f"network {number}: the route {route}, but {first} is the first of those that networkx lists")


def check_near(number, network, near):
    """Compares a near side with what networkx reaches by the open steps."""
    edges = graph(network, headrooms(network))
    reached = networkx.descendants(edges, network.intake) | {network.intake}
    if reached != {v for v in range(network.n) if near[v]}:
        sys.exit(f"network {number}: near is {near}, but networkx reaches {reached}")


def check_cut(number, network, near, cut_sum):
    """Compares a bottleneck with what networkx finds for the limits of a network that carries a flow."""
    edges = graph(network, limits(network))
    outer = network.intake, network.outfall
    least = networkx.minimum_cut_value(edges, *outer)
    residual = networkx.algorithms.flow.dinitz(edges, *outer)  # a flow of its own
    opened = networkx.DiGraph()
    opened.add_nodes_from(range(network.n))
    opened.add_edges_from((u, v) for u, v, edge in residual.edges(data=True) if edge["flow"] < edge["capacity"])
    reached = networkx.descendants(opened, network.intake) | {network.intake}
    if cut_sum != least or reached != {v for v in range(network.n) if near[v]}:
        sys.exit(f"network {number}: a bottleneck of {cut_sum}, near {near}; networkx finds {least} and {reached}")


# ---- What is done to each network. -----------------------------------------------------------------------------------


ROUTE_EXISTS = 10  # the number of the refusal of a bottleneck while a route exists


def ask(number, network, flows, figures):
    """Asks for the bottleneck. `flows`: what the network carries is a flow. Says whether it was answered."""
    near = network.near_side()
    check_near(number, network, near)
    if near[network.outfall]:
        figures.cuts.add(ROUTE_EXISTS)
        seen["bottlenecks refused"] += 1
        return False
    across = [k for k in range(network.m) if near[network.tails[k]] and not near[network.heads[k]]]
    figures.sum, figures.crossing = sum(network.limits[k] for k in across), len(across)
    figures.cuts.add(figures.sum, figures.crossing, *(int(is_near) for is_near in near))
    if flows:
        check_cut(number, network, near, figures.sum)
    seen["bottlenecks"] += 1
    seen["bottlenecks with several near junctions"] += sum(near) > 1
    seen["bottlenecks with a crossing reach of limit 0"] += any(network.limits[k] == 0 for k in across)
    return True


def settle(number, network, budget, figures, flows):
    """Asks for the bottleneck, settles, and asks once more. Says whether no route is left."""
    before = ask(number, network, flows, figures)
    routes, finished = settle_alone(number, network, budget, figures)
    after = ask(number, network, flows, figures)
    if before != (finished and routes == 0) or after != finished:
        sys.exit(f"network {number}: bottlenecks answered {before} and {after}, routes {routes}, finished {finished}")
    return finished


def settle_alone(number, network, budget, figures):
    """Pushes first shortest routes until there is none, or as many as the budget allows. Says how many, and whether none
    is left.
    """
    most = most_litres(network, headrooms(network))
    routes = litres = 0
    while True:
        route = first_shortest(network)
        check_route(number, network, route)
        if route is None or routes == budget:
            break
        figures.checksum.add(len(route), *route)
        litres += network.push(route)
        routes += 1
        seen["routes"] += 1
        seen["routes with a step back"] += any(step % 2 for step in route)
        lengths.setdefault(number, set()).add(len(route))
    finished = route is None
    if (litres == most) != finished or litres > most:
        sys.exit(f"network {number}: {litres} litres, finished {finished}, but networkx finds that {most} can go")
    figures.routes += routes
    figures.litres += litres
    figures.checksum.add(routes, litres, finished, *network.carried)
    seen["settlings"] += 1
    return routes, finished


def change(dice, network, kind):
    """A change of one reach. The network may refuse it, and then stays as it is."""
    k = dice.up_to(network.m)
    limit, carried = (network.limits[k], network.carried[k]) if k < network.m else (0, 0)
    sort = dice.up_to(3)
    if sort == 0:
        network.limit(k, dice.up_to(carried))
    elif sort == 1:
        network.limit(k, limit + dice.up_to(20))
    elif sort == 2 and kind == "carrying":
        network.carry(k, dice.up_to(limit + 1))
    else:
        network.limit(k, carried + dice.up_to(20))
    seen["changes"] += 1


def check_litres(number, network, figures):
    """The litres in all of a network that began dry have to be what networkx finds for its limits."""
    most = most_litres(network, limits(network))
    if figures.litres != most:
        sys.exit(f"network {number}: {figures.litres} litres in all, but networkx finds that {most} can go")
    figures.litres = most


def trial(number):
    kind, scale = form(number)
    network = make(number)
    dice = Dice(TRIAL_SEED + number)
    dice.one_in(2)  # whether the program asks twice for each route
    settled, flows = Figures(), kind != "carrying"
    for _ in range(dice.up_to(2)):
        settle(number, network, dice.up_to(MOST_BUDGETS[scale]), settled, flows)
        for _ in range(dice.up_to(4)):
            change(dice, network, kind)
    if not settle(number, network, WHOLE_BUDGET, settled, flows):
        sys.exit(f"network {number}: not finished")
    if flows:
        check_litres(number, network, settled)

    drained = Figures()
    network.drain()
    settle(number, network, WHOLE_BUDGET, drained, True)
    check_litres(number, network, drained)
    seen["networks without a route"] += settled.routes == 0
    return f"{number} {kind} {network.n} {network.m}: {settled}, drained {drained}, same"


seen = dict.fromkeys(
    (
        "settlings",
        "changes",
        "routes",
        "routes with a step back",
        "networks without a route",
        "bottlenecks",
        "bottlenecks with several near junctions",
        "bottlenecks with a crossing reach of limit 0",
        "bottlenecks refused",
    ),
    0,
)
lengths = {}  # for each network, the lengths of the routes that were pushed


def main():
    lines = [trial(number) for number in range(NETWORKS)]
    stdout = "".join(line + "\n" for line in lines)
    (FOLDER / "stdout").write_bytes(stdout.encode("ascii"))
    print(f"{len(lines)} lines, {len(stdout)} bytes of stdout")
    print(", ".join(f"{count} {what}" for what, count in seen.items()))
    print("most lengths of routes in one network:", max(len(each) for each in lengths.values()))
    print("most steps of a route:", max(max(each) for each in lengths.values()))


if __name__ == "__main__":
    main()
