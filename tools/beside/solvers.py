"""What networks can deliver and their bottlenecks, by solvers made elsewhere: networkx, and LEMON and Boost by way of
solvers.cpp. Nothing is fetched: what is not installed is named, and left out."""

import shutil
import subprocess
from pathlib import Path

try:
    import networkx
    from networkx.algorithms import flow
except ImportError:
    networkx = None

HERE = Path(__file__).resolve().parent
LIBRARIES = {"LEMON": ("lemon/preflow.h", "-DHAVE_LEMON", ["-llemon"]),
             "Boost": ("boost/graph/push_relabel_max_flow.hpp", "-DHAVE_BOOST", [])}


class Networkx:
    """Answers by networkx, its five algorithms in turn, and keeps what it answered. Each answer is the most that can be
    delivered, and the junctions that steps with headroom reach from the intake in the residual network of the solver."""

    def __init__(self):
        self.answers = {}
        self.turn = 0
        self.algorithms = [flow.preflow_push, flow.dinitz, flow.edmonds_karp, flow.shortest_augmenting_path,
                           flow.boykov_kolmogorov]

    def solve(self, junctions, intake, outfall, arcs):
        """The answer for a network whose reaches are (tail, head, limit)."""
        asked = junctions, intake, outfall, arcs
        if asked not in self.answers:
            self.answers[asked] = self.find(*asked)
        return self.answers[asked]

    def find(self, junctions, intake, outfall, arcs):
        """The answer, found anew. Reaches with the same ends are one edge there, with their limits added up."""
        graph = networkx.DiGraph()
        graph.add_nodes_from(range(junctions))
        for tail, head, limit in arcs:
            if graph.has_edge(tail, head):
                graph[tail][head]["capacity"] += limit
            else:
                graph.add_edge(tail, head, capacity=limit)
        algorithm = self.algorithms[self.turn % len(self.algorithms)]
        self.turn += 1
        residual = algorithm(graph, intake, outfall)
        near, waiting = {intake}, [intake]
        while waiting:
            at = waiting.pop()
            for head, edge in residual[at].items():
                if edge["flow"] < edge["capacity"] and head not in near:
                    near.add(head)
                    waiting.append(head)
        return residual.graph["flow_value"], frozenset(near)


class Compiled:
    """solvers.cpp, compiled into a folder with the libraries that are installed. `missing` names what is not."""

    def __init__(self, folder):
        self.program, self.missing = None, []
        compiler = shutil.which("g++")
        if not compiler:
            self.missing = ["g++"]
            return
        options, links = [], []
        for library, (header, option, link) in LIBRARIES.items():
            if self.has(compiler, header, link):
                options.append(option)
                links += link
            else:
                self.missing.append(library)
        if options:
            self.program = Path(folder) / "solvers"
            subprocess.run([compiler, "-O1", "-std=c++17", *options, str(HERE / "solvers.cpp"), "-o", str(self.program), *links],
                           check=True)

    @staticmethod
    def has(compiler, header, link):
        """Whether a program that includes a header can be compiled and linked."""
        said = subprocess.run([compiler, "-std=c++17", "-x", "c++", "-", "-o", "/dev/null", *link], capture_output=True,
                              input=f"#include <{header}>\nint main() {{ return 0; }}\n".encode())
        return said.returncode == 0

    def solve_all(self, asked):
        """For each network a dictionary: by the name of the solver, its answer in the form of `Networkx.solve`."""
        if not self.program or not asked:
            return [{} for _ in asked]
        text = []
        for junctions, intake, outfall, arcs in asked:
            text.append(f"{junctions} {intake} {outfall} {len(arcs)}\n")
            text += [f"{tail} {head} {limit}\n" for tail, head, limit in arcs]
        said = subprocess.run([str(self.program)], input="".join(text), capture_output=True, text=True, check=True).stdout
        answers = [self.answers_of(block) for block in said.split("\n\n")[:-1]]
        assert len(answers) == len(asked)
        return answers

    @staticmethod
    def answers_of(block):
        """The answers of the solvers for one network, from their lines."""
        answers = {}
        for words in map(str.split, block.split("\n")):
            near = frozenset(v for v, digit in enumerate(words[2]) if digit == "1")
            answers[words[0]] = int(words[1]), near
        return answers
