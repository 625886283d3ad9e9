"""The plain machine of docs/SEARCHES.md, which pushes first shortest routes, on the networks that reading.py reads. With it every
word of a report is known: how many routes a settling pushes, its litres under any budget, and what each reach carries. It
asks no solver."""

import reading


class Plain(reading.Play):
    """The commands of a reading, answered by the plain machine. `amounts` is what each reach carries."""

    def __init__(self, described):
        super().__init__(described, None, None)
        self.amounts = [0] * len(self.limits)
        self.leaving = [[] for _ in range(described.junctions)]
        self.entering = [[] for _ in range(described.junctions)]
        for k, reach in enumerate(described.reaches):
            for step, begin, end in ((2 * k, reach.tail, reach.head), (2 * k + 1, reach.head, reach.tail)):
                self.leaving[begin].append((step, end))
                self.entering[end].append((step, begin))

    def headroom(self, step):
        """How much more a step can take."""
        return self.amounts[step // 2] if step % 2 else self.limits[step // 2] - self.amounts[step // 2]

    def route(self):
        """The first shortest route, as a list of steps, or None: from the intake on the lowest open step that leads nearer to
        the outfall."""
        intake, outfall = self.reading.intake, self.reading.outfall
        far, waiting = {outfall: 0}, [outfall]
        for at in waiting:
            if at == intake:
                break
            for step, begin in self.entering[at]:
                if begin not in far and self.headroom(step):
                    far[begin] = far[at] + 1
                    waiting.append(begin)
        if intake not in far:
            return None
        steps, at = [], intake
        while at != outfall:
            step, at = min((step, end) for step, end in self.leaving[at]
                           if far.get(end) == far[at] - 1 and self.headroom(step))
            steps.append(step)
        return steps

    def settle(self, budget):
        """S: routes are pushed until none exists, or the budget is spent."""
        routes, before = 0, self.delivers
        steps = self.route()
        while steps and routes < budget:
            least = min(map(self.headroom, steps))
            for step in steps:
                self.amounts[step // 2] += -least if step % 2 else least
            routes += 1
            self.delivers += least
            steps = self.route()
        return ["settled", str(routes), str(self.delivers - before), "no" if steps else "yes"]

    def carried(self, k):
        """What reach k carries."""
        return self.amounts[k]

    def finished(self):
        """The sum and the near side of the bottleneck, or None while a route exists."""
        near, waiting = {self.reading.intake}, [self.reading.intake]
        for at in waiting:
            for step, end in self.leaving[at]:
                if end not in near and self.headroom(step):
                    near.add(end)
                    waiting.append(end)
        if self.reading.outfall in near:
            return None
        crossing = [limit for reach, limit in zip(self.reading.reaches, self.limits)
                    if reach.tail in near and reach.head not in near]
        return sum(crossing), near

    def drain(self):
        """D."""
        self.amounts = [0] * len(self.limits)
        return super().drain()


def report(described):
    """The lines of the report of a reading, each a list of words."""
    return reading.report(described, Plain(described))
