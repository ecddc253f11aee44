#!/usr/bin/env python3
"""Makes everything beside each NAME.txt: the plan file, what the programs print
for it and for its house rules (NAME-rules.cnf), the Graphviz source and the picture.

    samples/draw.py            all samples, with the reference of tests/
    samples/draw.py NAME ..    some of them

Needs Graphviz (Debian: graphviz). What the programs print comes from the
independent reference, and is made again only where the plan file changed.
"""

import itertools
import pathlib
import struct
import subprocess
import sys

HERE = pathlib.Path(__file__).resolve().parent
MOST_LABELS = 40


class Sample:
    """What a NAME.txt says."""

    def __init__(self, name):
        self.name = name
        self.title = name
        self.picture = "dot"
        self.nodes = {}
        self.places = {}  # where a node stands in the picture, if the text says so
        self.variables = 0
        self.edges = []  # from, to, variable, length or None, whether it is one half of a link
        self.atoms = []  # kind, from, to, bound, variable
        self.clauses = []

    def path(self, ending):
        return HERE / f"{self.name}.{ending}"

    def rules(self, ending):
        return HERE / f"{self.name}-rules.{ending}"

    def answer(self):
        """What `linkplan` prints, with the house rules where there are any."""
        with_rules = self.rules("linkplan")
        return with_rules if with_rules.exists() else self.path("linkplan")


def read_text(name):
    sample = Sample(name)
    for number, line in enumerate(sample.path("txt").read_text().splitlines(), 1):
        words = line.split("#")[0].split()
        if words:
            try:
                read_line(sample, words)
            except (ValueError, KeyError):
                sys.exit(f"{name}.txt, line {number}: {line}")
    return sample


def read_line(sample, words):
    match words:
        case ["title", *rest]:
            sample.title = " ".join(rest)
        case ["picture", layout]:
            sample.picture = layout
        case ["node", number, "at", across, up, *rest]:
            sample.nodes[int(number)] = " ".join(rest)
            sample.places[int(number)] = (float(across), float(up))
        case ["node", number, *rest]:
            sample.nodes[int(number)] = " ".join(rest)
        case ["variables", count]:
            sample.variables = int(count)
        case ["edge", a, b, "variable", x, *rest]:
            sample.edges.append((int(a), int(b), int(x), length(rest), False))
        case ["link", a, b, "variable", x, *rest]:
            sample.edges.append((int(a), int(b), int(x), length(rest), True))
            sample.edges.append((int(b), int(a), int(x), length(rest), True))
        case ["atom", a, "reaches", b, "variable", x]:
            sample.atoms.append((1, int(a), int(b), 0, int(x)))
        case ["atom", a, "within", bound, "of", b, "variable", x]:
            sample.atoms.append((2, int(a), int(b), int(bound), int(x)))
        case ["atom", a, "length", "at", "most", bound, "to", b, "variable", x]:
            sample.atoms.append((3, int(a), int(b), int(bound), int(x)))
        case ["clause", *literals]:
            sample.clauses.append([int(literal) for literal in literals])
        case ["at", "most", most, "of", *variables]:
            add_at_most(sample, int(most), [int(variable) for variable in variables])
        case _:
            raise ValueError(words)


def length(words):
    """What may stand behind an edge's variable: its length, or nothing."""
    match words:
        case []:
            return None
        case ["length", number]:
            return int(number)
        case _:
            raise ValueError(words)


def add_at_most(sample, most, variables):
    """Every larger group is forbidden by a clause."""
    for group in itertools.combinations(variables, most + 1):
        sample.clauses.append([-variable for variable in group])


def record(tag, form, *fields):
    value = struct.pack(">" + form, *fields)
    return struct.pack(">BH", tag, len(value)) + value


def plan_bytes(sample):
    records = [record(1, "HH", len(sample.nodes), sample.variables)]
    for a, b, x, long, _ in sample.edges:
        records.append(record(2, "HHH", a, b, x) if long is None else record(6, "HHHH", a, b, x, long))
    for kind, a, b, bound, x in sample.atoms:
        records.append(record(3, "BHHHH", kind, a, b, bound, x))
    for literals in sample.clauses:
        records.append(record(4, "h" * len(literals), *literals))
    records.append(record(5, ""))
    return b"".join(records)


def write_plan(sample):
    """Writes the plan file; whether it changed."""
    path, plan = sample.path("plan"), plan_bytes(sample)
    if path.exists() and path.read_bytes() == plan:
        return False
    path.write_bytes(plan)
    return True


def print_to(path, source, *words):
    """What a program prints, given a file on standard input."""
    printed = subprocess.run(words, input=source.read_bytes(), stdout=subprocess.PIPE, check=True)
    path.write_bytes(printed.stdout)


def write_printed(sample, changed, reference):
    plan = sample.path("plan")
    for program in ["linkplan", "linkcnf"]:
        path = sample.path(program)
        if changed or not path.exists():
            print_to(path, plan, reference(), program)
    rules = sample.rules("cnf")
    if rules.exists():
        ruled = sample.rules("linkrules")
        print_to(ruled, rules, reference(), "linkrules", plan)
        print_to(sample.rules("linkplan"), ruled, reference(), "linkplan")


def plan_found(sample):
    """The literals of the plan that `linkplan` prints, or none."""
    for line in sample.answer().read_text().splitlines():
        if line.startswith("v "):
            return {int(word) for word in line.split()[1:-1]}
    return set()


def verdict(sample):
    return sample.answer().read_text().splitlines()[0].removeprefix("s ")


def dot_source(sample):
    found = plan_found(sample)
    lines = [
        f"// {sample.title}. Made by draw.py from {sample.name}.txt.",
        f'digraph "{sample.name}" {{',
        f'  layout={sample.picture}; rankdir=LR; overlap=false; splines=true; sep="+12";',
        f'  label="{sample.title}\\n{verdict(sample)}"; labelloc=b; fontname="sans-serif";',
        '  node [shape=circle, fontname="sans-serif", fontsize=11, style=filled, fillcolor="#eef3f8",',
        "        fixedsize=true, width=0.95];",
        '  edge [fontname="sans-serif", fontsize=10];',
    ]
    lines += [f"  {node} [{node_look(sample, node)}];" for node in sample.nodes]
    edges = list(drawn(sample))
    # Many labels would cover each other.
    shown = len(edges) <= MOST_LABELS
    lines += [f"  {a} -> {b} [{look(x, long, both, shown, found)}];" for a, b, x, long, both in edges]
    lines += [f'  // {atom_text(atom)}' for atom in sample.atoms]
    return "\n".join(lines) + "\n}\n"


def drawn(sample):
    """A link is two edges but one line."""
    halves = set()
    for a, b, x, long, both in sample.edges:
        if not both or (b, a, x, long) not in halves:
            halves.add((a, b, x, long))
            yield a, b, x, long, both


def node_look(sample, node):
    label = sample.nodes[node].replace(" (", "\\n(")
    place = sample.places.get(node)
    return f'label="{label}"' + (f', pos="{place[0]:g},{place[1]:g}!"' if place else "")


def look(x, long, both, shown, found):
    """Lit, dark, or neither where there is no plan."""
    label = f"{x}" if long is None else f"{x} ({long})"
    ends = ("dir=none, " if both else "") + (f'label="{label}", ' if shown else "")
    if x in found:
        return f'{ends}color="#1a7f37", penwidth=3'
    if -x in found:
        return f'{ends}color="#9aa4ae", style=dashed, fontcolor="#6a747e"'
    return f'{ends}color="#33414e"'


def atom_text(atom):
    kind, a, b, bound, x = atom
    said = {
        1: f"{a} reaches {b}",
        2: f"{a} within {bound} of {b}",
        3: f"{a} length at most {bound} to {b}",
    }
    return f"variable {x}: {said[kind]}"


def write_pictures(sample):
    sample.path("dot").write_text(dot_source(sample))
    subprocess.run(["dot", "-Tsvg", "-o", sample.path("svg"), sample.path("dot")], check=True)


def build_reference():
    built = subprocess.run([HERE.parent / "tests" / "build-reference"], stdout=subprocess.PIPE, check=True, text=True)
    return built.stdout.strip()


def main(names):
    built = []

    def reference():
        if not built:
            built.append(build_reference())
        return built[0]

    for name in names or sorted(path.stem for path in HERE.glob("*.txt")):
        sample = read_text(name)
        changed = write_plan(sample)
        write_printed(sample, changed, reference)
        write_pictures(sample)
        print(f"{name}: {verdict(sample)}")


if __name__ == "__main__":
    main(sys.argv[1:])
