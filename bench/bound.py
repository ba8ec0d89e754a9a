"""The measuring and the sums of bench/bound, which starts it: argument, how many random cases."""

import math
import os
import subprocess
import sys
import tempfile
from collections import defaultdict

# The C library clears with vector stores; else it may take one instruction that valgrind counts once a byte.
CLEARING = {**os.environ, "GLIBC_TUNABLES": "glibc.cpu.x86_rep_stosb_threshold=1000000"}
FUNCTIONS = {"Check": "styrmflo_check", "TypeCheck": "styrmflo_type_check", "Bench": "styrmflo_bench", "Display": "styrmflo_display"}
KINDS = ["empty", "terminal", "sequence", "choice", "repeat", "not", "call", "bind", "update", "constraint"]
LEAVES = ["empty", "terminal", "update", "constraint"]


class Case:
    """A line of the program `bound`, which tells what stands where."""

    def __init__(self, line):
        told = line.rstrip("\n").split("\t")
        self.group, self.name, self.size, self.call = told[0], told[1], int(told[2]), told[3]
        self.rules, self.nodes, self.words, self.message, self.budget, self.number, self.visits = map(int, told[4:11])
        self.kinds = dict(zip(KINDS, map(int, told[11].split(",")))) if told[11] else {}
        loads = [tuple(map(int, load.split(":"))) for load in told[12].split(",") if load]
        self.loads = [(KINDS[load[0] - 1], load[1:]) for load in loads]
        self.start = tuple(map(int, told[13].split(":"))) if told[13] else (0,) * 4
        self.time = None

    def is_run(self):
        return self.call in ("Bench", "Display") and (self.number == 0 or self.number >= 8)


def counted_in(path):
    """Instructions of one call, and of these memset's own."""
    total = memset = 0
    clears = of_callee = False
    with open(path) as dump:
        for line in dump:
            if line.startswith("fn="):
                clears = "memset" in line
            elif line.startswith("calls="):
                of_callee = True
            elif line.startswith("summary:"):
                total = int(line.split()[1])
            elif line[0].isdigit():
                memset += int(line.split()[1]) if clears and not of_callee else 0
                of_callee = False
    return total, memset


def counted(call, random):
    """The cases of one function: callgrind writes a file at the end of each call of it."""
    with tempfile.TemporaryDirectory() as room:
        function = FUNCTIONS[call]
        command = ["valgrind", "--sim-hints=fallback-llsc", "--tool=callgrind", "--collect-atstart=no", f"--toggle-collect={function}"]
        command += [f"--dump-after={function}", "--compress-strings=no", "--compress-pos=no", f"--callgrind-out-file={room}/calls"]
        command += ["target/release/bound", call, str(random)]
        told = subprocess.run(command, env=CLEARING, capture_output=True, text=True, check=True)
        cases = [Case(line) for line in told.stdout.splitlines()]
        for place, case in enumerate(cases, 1):
            case.total, case.memset = counted_in(f"{room}/calls.{place}")
        return cases


def timed(cases):
    told = subprocess.run(["target/release/bound", "times"], capture_output=True, text=True, check=True)
    rest = {call: iter(made) for call, made in cases.items()}
    for line in told.stdout.splitlines():
        call, time = line.split("\t")
        next(rest[call]).time = None if time == "-" else float(time)


def own(case):
    """Instructions outside memset: what the C library's takes depends on where the cleared memory lies."""
    return case.total - case.memset


def time(case):
    return case.time


def grouped(cases, group):
    named = defaultdict(list)
    for case in cases:
        if case.group == group:
            named[case.name].append(case)
    return named


class Nest:
    """Of each level of a nest: what it takes in all, on the way down, and back."""

    def __init__(self, cases, value):
        few, few_none, many, many_none, ten, thirty = map(value, cases)
        levels = cases[2].size - cases[0].size
        self.level = (many - many_none - few + few_none) / levels
        self.down = (thirty - ten) / 20
        self.back = self.level - self.down


def nests(cases, value, group):
    return {name: Nest(made, value) for name, made in grouped(cases, group).items()}


def rounds(cases, value):
    return {name: (value(b) - value(a)) / (b.size - a.size) for name, (a, b) in grouped(cases, "round").items()}


def visits(cases, value, group):
    """The dearest visit of each kind. A node with parts takes its own visit and its last return. Each return that goes on to another part (a sequence to its second, a choice to
    its second arm, a repeat to its next round) is counted with a visit of a leaf: a run has one of these less than visits of leaves."""
    nest = nests(cases, value, group)
    a_round = rounds(cases, value)
    sequence, choice = nest["sequence, first part failed"].down, nest["choice, first arm matched"].down
    second = nest["sequence, second part matched"].back
    empty = nest["leaf: empty"].down - sequence
    to_second_arm = nest["choice, second matches on the way back"].back - nest["not"].back - nest["choice, first arm matched"].back
    onward = max(0, a_round["empty"] - empty, to_second_arm - empty)
    fails = nest["leaf: terminal, failed"].down - choice - sequence - empty - nest["sequence, second part failed"].back
    refused = max(nest[f"leaf: constraint{what}, failed"].down for what in ("", " of a slot")) - choice
    holds = max(nest[f"leaf: constraint{what}, matched"].down for what in ("", " of a slot")) - sequence
    update = max(nest[f"leaf: update by {what}"].down for what in ("a Bool", "an Integer", "a Text", "a slot")) - sequence
    by_round = max(cost for name, cost in a_round.items() if name.startswith("update"))
    last = {
        "sequence": max(second, nest["sequence, first part failed"].back, nest["sequence, second part failed"].back),
        "choice": max(nest[f"choice, {way}"].back for way in ("first arm matched", "second arm matched", "second arm failed")),
    }
    return {
        "empty": empty + onward,
        "terminal": max(nest["sequence, terminal on the way back"].back - second + onward, fails, a_round["terminal"]),
        "sequence": sequence + last["sequence"],
        "choice": choice + last["choice"],
        "repeat": nest["not of repeat"].level - nest["not"].level,
        "not": nest["not"].level,
        "call": max(nest["call, matched"].level, nest["call, failed"].level),
        "bind": max(nest["bind, matched"].level, nest["bind, failed"].level),
        "update": max(update + onward, by_round),
        "constraint": max(holds + onward, refused, a_round["constraint"]),
    }


def a_value(cases, value):
    """What an argument, a returned value of a callee, and one of the start rule add at most, where it is a leaf."""
    nest = nests(cases, value, "nest")
    alone = nest["call, matched"].level
    given = max(nest[f"call of 4 {what}, matched"].level - alone for what in ("Bools", "Integers", "Texts", "slots")) / 4
    back = max(nest[f"call for 4 {what}, matched"].level - alone for what in ("Bools", "Integers", "Texts")) / 4
    back = max(back, (nest["call of and for 4 slots, matched"].level - nest["call of 4 slots, matched"].level) / 4)
    start = 0
    for none, one, none_of_four, four in grouped(cases, "start").values():
        start = max(start, (value(four) - value(none_of_four) - value(one) + value(none)) / 4)
    return given, back, start


def evaluations(cases, value):
    """Of each expression that is measured: name, nodes, whether it is deep, bytes compared, what it takes more than a leaf that answers the same."""
    leaf = {made[1].number: value(made[1]) - value(made[0]) for made in grouped(cases, "leaf").values()}
    found = []
    for group in ("expression", "depth", "text"):
        for name, made in grouped(cases, group).items():
            for without, case in zip(made[::2], made[1::2]):
                load = next(load for kind, load in case.loads if kind == "constraint")
                found.append((group, f"{name}, {case.size}", load, value(case) - value(without) - leaf[case.number]))
    return found


def expressions(cases, value):
    """A node of an expression with operators, what one that is deep takes more, a byte that is compared; what a node more takes in each chain; the step to the longer pile."""
    found = evaluations(cases, value)
    depth = {load[1]: cost for group, _, load, cost in found if group == "depth"}
    levels = sorted(depth)
    # Nots one inside the other: from one to the next a node more, and where the first pile has no more room the longer one too.
    steps = [depth[b] - depth[a] for a, b in zip(levels, levels[1:])]
    deep = steps[1] - steps[0]
    texts = {load[3]: cost for group, _, load, cost in found if group == "text"}
    byte = (texts[2048] - texts[0]) / 2048
    named = defaultdict(dict)
    for group, name, load, cost in found:
        if group == "expression":
            named[name.rsplit(",", 1)[0]][load[1]] = (cost, load[2])
    slopes = {}
    for name, by_nodes in named.items():
        sizes = [nodes for nodes in sorted(by_nodes) if by_nodes[nodes][1]] or sorted(by_nodes)
        if len(sizes) > 1 and sizes[-1] > 100:
            slopes[name] = (by_nodes[sizes[-1]][0] - by_nodes[sizes[-2]][0]) / (sizes[-1] - sizes[-2])
    node = max((cost - deep * load[2] - byte * load[3]) / load[1] for _, _, load, cost in found)
    return {"node": node, "deep": deep, "byte": byte}, slopes, steps


def one_node(cases):
    return next(case for case in cases if case.group == "check" and case.name == "one node")


def checks(cases, value):
    """The table of one node; what a node takes at most, by the tables of few rules; and what a rule takes at most beside that, by the tables of many. And of each table what it
    takes more than one node: a node, or a rule beside its nodes."""
    made = [case for case in cases if case.group == "check" and case.nodes > 1]
    one = one_node(cases)
    more = {case: value(case) - value(one) for case in made}
    nodes = {case: cost / case.nodes for case, cost in more.items() if case.rules < 3}
    node = max(nodes.values())
    rules = {case: (cost - node * case.nodes) / case.rules for case, cost in more.items() if case.rules > 2}
    return value(one), node, max(rules.values()), nodes, rules


# Bytes that are cleared, a number a call of memset.
CLEARED = {"Check": [2048], "TypeCheck": [2048, 8192], "run": [128, 39040], "call": [128], "deep": [8192]}


def clearing(what):
    """What the C library's memset takes here, at most: a little more or less, as the memory lies."""
    return sum(25 + count // 16 for count in CLEARED[what])


class Bound:
    """The constants, rounded up, without memset; and with it."""

    def __init__(self, checks, run, visit, value, expression):
        self.checks = {call: tuple(map(math.ceil, costs)) for call, costs in checks.items()}
        self.run, self.value = math.ceil(run), math.ceil(value)
        self.visit = {kind: math.ceil(cost) for kind, cost in visit.items()}
        self.expression = {what: math.ceil(round(cost, 1)) for what, cost in expression.items()}

    def check(self, case):
        call = "TypeCheck" if case.call in ("TypeCheck", "Display") else "Check"
        fixed, node, rule = self.checks[call]
        return fixed + clearing(call) + node * case.nodes + rule * case.rules

    def beside(self):
        """Of a run, beside its checks, its visits and what its start rule returns."""
        return self.run + clearing("run")

    def load(self, load):
        values, nodes, deep, compared = load
        more = self.expression
        return self.value * values + more["node"] * nodes + (more["deep"] + clearing("deep")) * deep + more["byte"] * compared

    def a_visit(self, kind, load):
        return self.visit[kind] + (clearing("call") if kind == "call" else 0) + self.load(load)

    def dearest(self, case, kind=None):
        return max((self.a_visit(of, load) for of, load in case.loads if kind in (None, of)), default=0)

    def of(self, case, visits=None):
        """Every visit as dear as the dearest of the table."""
        checked = self.check(case)
        if case.call in ("Check", "TypeCheck"):
            return checked
        if not case.is_run():
            return checked + self.beside()
        return checked + self.beside() + self.load(case.start) + (case.visits if visits is None else visits) * self.dearest(case)

    def by_kind(self, case):
        """Every visit as dear as the dearest of its kind in the table."""
        if not case.is_run():
            return self.of(case)
        made = sum(count * self.dearest(case, kind) for kind, count in case.kinds.items() if count)
        return self.check(case) + self.beside() + self.load(case.start) + made


def bound_of(cases):
    run = cases["Display"]
    fixed = {call: checks(cases[call], own)[:3] for call in ("Check", "TypeCheck")}
    beside = own(smallest_run(cases)) - own(one_node(cases["TypeCheck"]))
    return Bound(fixed, beside, visits(run, own, "nest"), max(a_value(run, own)), expressions(run, own)[0])


def smallest_run(cases):
    """One visit, of an empty node."""
    return next(case for case in cases["Display"] if case.group == "start" and case.size == 0 and case.budget == 1)


class Pace:
    """Times: of the checks as the instructions, of the rest of a run without visits, and the most nanoseconds that an instruction of visits took on average in a call that is measured."""

    def __init__(self, cases):
        self.checks = checks(cases["TypeCheck"], time)[:3]
        self.run = smallest_run(cases).time - one_node(cases["TypeCheck"]).time
        self.visits = {}
        for case, without in pairs(cases["Display"]):
            self.visits[case] = (case.time - without.time) / (case.total - without.total)

    def visit(self):
        return max(self.visits.values())

    def check(self, case):
        fixed, node, rule = self.checks
        return fixed + node * case.nodes + rule * case.rules

    def of(self, case, instructions):
        """From the instructions of a bound, those of its visits and of what the start rule returns."""
        return self.check(case) + self.run + self.visit() * instructions


def pairs(cases):
    """Long calls, and the same with no visits or with fewer."""
    for made in grouped(cases, "round").values():
        yield made[1], made[0]
    for without, case in zip(*[iter(grouped(cases, "dearest")["comparisons"])] * 2):
        if case.size == 65535:
            yield case, without
    for group in ("example", "run"):
        for case, without in grouped(cases, group).values():
            yield case, without


def plain(figure):
    if isinstance(figure, str):
        return figure
    return f"{figure:,.0f}" if figure == int(figure) else f"{figure:,.2f}"


def heading(title, *columns):
    print(f"\n{title:64}" + "".join(f" {column:>14}" for column in columns))


def line(name, *figures):
    print(f"{name:64}" + "".join(f" {plain(figure):>14}" for figure in figures), flush=True)


def print_checks(cases):
    for call, title in (("Check", "Table check"), ("TypeCheck", "Type check, with the table check")):
        _, _, _, nodes, rules = checks(cases[call], own)
        for what, found in (("a node, in tables of few rules", nodes), ("a rule beside its nodes", rules)):
            heading(f"{title}: {what}", "rules", "nodes", "answer", "instructions", "a record word", "ns in all")
            for case, cost in sorted(found.items(), key=lambda pair: -pair[1]):
                line(case.name, case.rules, case.nodes, case.number, cost, own(case) / case.words, f"{case.time:,.0f}")


def print_clearing(cases):
    made = {case.name: case for of in cases.values() for case in of if case.group == "clearing"}
    heading("Runs that make no visit, and refusals", "answer", "instructions", "of it memset", "ns")
    for name, case in made.items():
        line(name, case.number, case.total, case.memset, f"{case.time:.0f}")
    for table in ("one node", "the full mixed table"):
        for run, check in (("bench run of no visit", "table check"), ("display run of no visit", "type check"), ("WORK", "type check")):
            more, less = made[f"{table}, {run}"], made[f"{table}, {check}"]
            line(f"    {table}: {run} less {check}", "", more.total - less.total, more.memset - less.memset, f"{more.time - less.time:.0f}")


def print_nests(cases):
    run = cases["Display"]
    near, deep = nests(run, own, "nest"), nests(run, own, "deep nest")
    heading("A level of a nest: instructions without memset", "in all", "down", "back", "under depth 128")
    for name, nest in near.items():
        line(name, nest.level, nest.down, nest.back, deep[name].level)
    heading("A round of a repeat", "instructions", "ns")
    by_time = rounds(run, time)
    for name, cost in rounds(run, own).items():
        line(name, cost, f"{by_time[name]:.1f}")
    heading("A value that is a leaf", "instructions")
    for name, cost in zip(("an argument", "returned by a callee", "returned by the start rule"), a_value(run, own)):
        line(name, cost)


def print_expressions(cases):
    _, slopes, steps = expressions(cases["Display"], own)
    heading("Expressions: a node more", "instructions")
    for name, slope in sorted(slopes.items(), key=lambda pair: -pair[1]):
        line(name, slope)
    line("nots in each other, without memset: from 15 to 16, 17, 18", *steps)


def print_bound(bound, pace):
    heading("The bound", "instructions", "bytes cleared", "with memset")
    for call, name in (("Check", "table check"), ("TypeCheck", "type check, with the table check")):
        fixed, node, rule = bound.checks[call]
        line(f"{name}: at all", fixed, sum(CLEARED[call]), fixed + clearing(call))
        line(f"{name}: a node", node)
        line(f"{name}: a rule", rule)
    line("run: start, answer, clearing of W", bound.run, sum(CLEARED["run"]), bound.beside())
    for kind in KINDS:
        more = (sum(CLEARED["call"]), bound.visit[kind] + clearing("call")) if kind == "call" else ()
        line(f"a visit: {kind}", bound.visit[kind], *more)
    line("a value: an argument, or what a rule returns", bound.value)
    line("a node of an expression with operators", bound.expression["node"])
    deep = bound.expression["deep"]
    line("more than 16 operators one inside the other", deep, sum(CLEARED["deep"]), deep + clearing("deep"))
    line("a byte of two Texts compared", bound.expression["byte"])
    heading("Times", "ns")
    for what, took in zip(("at all", "a node", "a rule"), pace.checks):
        line(f"type check, with the table check: {what}", f"{took:.1f}")
    line("run: start, answer, clearing of W", f"{pace.run:.0f}")
    for case, took in sorted(pace.visits.items(), key=lambda pair: -pair[1]):
        line(f"an instruction: {case.group}, {case.name}", f"{took:.3f}")


def print_dearest(cases, bound, pace):
    heading("The dearest visit: 255 comparisons of a Text with itself", "bytes", "instructions", "bound", "ns", "bound, ns")
    for without, case in zip(*[iter(grouped(cases["Display"], "dearest")["comparisons"])] * 2):
        most = bound.dearest(case, "constraint")
        line("", case.size, case.total - without.total, most, f"{case.time - without.time:,.0f}", f"{pace.visit() * most:,.0f}")


def print_runs(cases, bound, pace):
    heading("Whole display runs", "rules", "nodes", "visits", "dearest visit", "instructions", "bound", "by kind", "ns", "bound, ns", "by kind, ns")
    for case in cases["Display"]:
        if case.group in ("example", "run") and case.budget:
            most, by_kind = bound.of(case), bound.by_kind(case)
            times = [pace.of(case, cost - bound.check(case) - bound.beside()) for cost in (most, by_kind)]
            line(case.name, case.rules, case.nodes, case.visits, bound.dearest(case), case.total, most, by_kind, *(f"{took:,.0f}" for took in [case.time] + times))
            print("    visits: " + ", ".join(f"{kind} {count}" for kind, count in case.kinds.items() if count))
    case = max((case for case in cases["Display"] if case.group == "example"), key=lambda case: case.visits)
    budget = 5892  # docs/FIRMWARE.md, 'Choosing a budget'
    most = bound.of(case, budget)
    line(f"    the example's table, budget {budget}", *[""] * 5, most, "", "", f"{pace.of(case, most - bound.check(case) - bound.beside()):,.0f}")


def tried(cases, bound):
    """How near each group comes to the bound; whether none is over it."""
    heading("The bound tried: instructions of a call to the bound's", "calls", "visits made", "over", "closest", "by kind: over", "closest")
    groups = defaultdict(list)
    for made in cases.values():
        for case in made:
            of = ("random, " + ("run" if case.is_run() else "refused")) if case.group == "random" else case.group
            groups[of].append((case.total / bound.of(case), case.total / bound.by_kind(case), case))
    over = 0
    for of, found in groups.items():
        most, kind = (max(found, key=lambda one: one[way]) for way in (0, 1))
        beyond = [sum(one[way] > 1 for one in found) for way in (0, 1)]
        over += sum(beyond)
        line(of, len(found), sum(one[2].visits for one in found), beyond[0], f"{most[0]:.3f}", beyond[1], f"{kind[1]:.3f}")
        for ratio, case in ((most[0], most[2]), (kind[1], kind[2])):
            print(f"    {ratio:.3f}: {case.name}, {case.call}, {case.rules} rules, {case.nodes} nodes, {case.visits} visits, answer {case.number}")
    return over == 0


def main():
    cases = {call: counted(call, int(sys.argv[1])) for call in FUNCTIONS}
    timed(cases)
    bound, pace = bound_of(cases), Pace(cases)
    print_checks(cases)
    print_clearing(cases)
    print_nests(cases)
    print_expressions(cases)
    print_dearest(cases, bound, pace)
    print_bound(bound, pace)
    print_runs(cases, bound, pace)
    if not tried(cases, bound):
        sys.exit("a call took more instructions than the bound")


if __name__ == "__main__":
    main()
