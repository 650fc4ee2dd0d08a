"""Expansion of a program from `main`, and the rules of sizes, causality and grades over it.

`check_expanded(program)` raises `Refused`. The program must hold all rules of names, types, kinds and first values.
"""
from reading import Refused
from rules import COMPARISONS, FLOAT_SIGNS, all_equations, all_expressions, bodies, conditions, values_of

MOST_PLACES, MOST_OCCURRENCES, MOST_SITES, MOST_BLOCKS, MOST_CALLS = 8192, 262144, 1024, 65536, 64


# sizes


def add_blocks(eq):
    if eq.kind == "present":
        return len(bodies(eq))
    if eq.kind == "automaton":
        return 2 * len(eq.states)
    return 1 if eq.kind == "reset" else 0


def events_of(eq):
    """The numbers of events and of `up` in an equation itself."""
    found = [arm.event for arm in eq.arms] if eq.kind == "der" else [c for c in conditions(eq) if c.kind == "event"]
    return len(found), sum(len(event.ups) for event in found)


def uses(decl):
    """The declarations that this one calls, once for each call; the use of a constant is a call."""
    found = []
    for e in all_expressions(decl):
        if e.kind == "call" and e.called:
            found.append(e.called)
        elif e.kind == "name" and e.constant:
            found.append(e.constant)
    return found


def count_sizes(program):
    """Gives each declaration its places, occurrences, sites, blocks and depth of calls, all calls in it included."""
    for decl in program:
        eqs, expressions = all_equations(decl), all_expressions(decl)
        events = [events_of(eq) for eq in eqs]
        sites = sum(n for _, n in events)
        hidden = sum(1 for e in expressions if e.kind == "flow" and e.sign == "fby") + sum(n for n, _ in events)
        sums = [len(decl.variables), len(expressions) + sites + hidden, sites, sum(map(add_blocks, eqs))]
        decl.calls = 0
        for called in uses(decl):
            sums = [a + b for a, b in zip(sums, called.sums)]
            decl.calls = max(decl.calls, called.calls + 1)
        decl.sums = sums


def check_sizes(program):
    count_sizes(program)
    main = next(d for d in program if d.name == "main")
    places, occurrences, sites, blocks = main.sums
    within = (
        places <= MOST_PLACES
        and occurrences <= MOST_OCCURRENCES
        and sites <= MOST_SITES
        and blocks + 1 <= MOST_BLOCKS
        and main.calls <= MOST_CALLS
    )
    if not within:
        raise Refused("expand-size", main.at)
    return main


# expansion


class Place:
    def __init__(self, number, var):
        self.number, self.var, self.at = number, var, var.at
        self.plain, self.starts, self.resets = [], [], []
        self.needs, self.graded, self.moves = [], [], False


class Block:
    def __init__(self):
        self.needs = []


class Copy:
    """A copy of a declaration: its places, the numbers of its occurrences, the copies that it calls."""

    def __init__(self, decl):
        self.decl, self.places, self.numbers, self.inner = decl, {}, {}, {}


def steps_of(decl):
    """What the walk over the tokens of a declaration meets, in order."""
    found = [(v.at, "place", v) for v in decl.variables]
    for e in all_expressions(decl):
        found.append((e.at, "occurrence", e))
        if e.kind == "call" and e.called:
            found.append((e.end, "copy", e))
        elif e.kind == "name" and e.constant:
            found.append((e.at, "copy", e))
    return sorted(found, key=lambda step: step[0])


class Expansion:
    """The places and blocks of a program, what each depends on, and what is needed of its graded occurrences."""

    def __init__(self, main):
        self.places, self.blocks, self.occurrences = [], [Block()], 0
        self.steps, self.reading, self.grading = {}, {}, {}
        self.wanted = []
        copy = self.walk(main)
        self.enter(copy, self.blocks[0], [], True)

    def walk(self, decl):
        copy = Copy(decl)
        if id(decl) not in self.steps:
            self.steps[id(decl)] = steps_of(decl)
        for _, what, part in self.steps[id(decl)]:
            if what == "place":
                copy.places[id(part)] = Place(len(self.places), part)
                self.places.append(copy.places[id(part)])
            elif what == "occurrence":
                copy.numbers[id(part)] = self.occurrences
                self.occurrences += 1
            else:
                copy.inner[id(part)] = self.walk(part.called if part.kind == "call" else part.constant)
        return copy

    # what stands where

    def enter(self, copy, block, tests, graded):
        """A copy that is called in this block; `tests` are the conditions of each `if` in whose branch it stands."""
        for v in copy.decl.variables:
            if v.origin != "local":
                self.declare(copy, v, block, tests)
        for e in copy.decl.results:
            self.expression(copy, e, block, tests, graded)
        self.equations(copy, copy.decl.eqs, block, tests, graded)

    def declare(self, copy, v, block, tests):
        place = copy.places[id(v)]
        place.needs.append(("node", block))
        place.needs.extend(("reads", c, e) for c, e in tests)

    def expression(self, copy, root, block, tests, graded):
        todo = [(root, tests)]
        while todo:
            e, inside = todo.pop()
            if e.kind == "if":
                cond, first, second = e.parts
                branches = inside + [(copy, cond)]
                todo += [(cond, inside), (first, branches), (second, branches)]
            else:
                todo += [(p, inside) for p in getattr(e, "parts", [])]
            if id(e) in copy.inner:
                self.call(copy, e, block, inside, graded)
            if graded:
                self.want_of_parts(copy, e)

    def call(self, copy, e, block, tests, graded):
        inner = copy.inner[id(e)]
        self.enter(inner, block, tests, graded)
        params = [v for v in inner.decl.variables if v.origin == "param"]
        for v, arg in zip(params, getattr(e, "parts", [])):
            self.define(inner.places[id(v)], block, copy, arg, None, graded)

    def define(self, place, block, copy, value, result, graded):
        """A plain definer; `result` is the number of the result where the value is a call with several."""
        place.needs.append(("node", block))
        place.plain.append((copy, value, result))
        if graded:
            place.graded.append((copy, value, result))

    def equations(self, copy, eqs, block, tests, graded):
        for eq in eqs:
            self.equation(copy, eq, block, tests, graded)

    def equation(self, copy, eq, block, tests, graded):
        inside = (block, tests, graded)
        if eq.kind == "plain":
            self.expression(copy, eq.value, *inside)
            for k, v in enumerate(eq.vars):
                result = k if len(eq.vars) > 1 else None
                self.define(copy.places[id(v)], block, copy, eq.value, result, graded)
        elif eq.kind == "init":
            self.start(copy, eq.var, eq.value, block, tests)
        elif eq.kind == "der":
            self.der(copy, eq, *inside)
        elif eq.kind == "reset":
            self.reset(copy, eq, *inside)
        elif eq.kind == "present":
            self.present(copy, eq, *inside)
        else:
            self.automaton(copy, eq, *inside)

    def start(self, copy, v, value, block, tests):
        place = copy.places[id(v)]
        place.needs.append(("node", block))
        place.starts.append((copy, value, block))
        self.expression(copy, value, block, tests, False)

    def der(self, copy, eq, block, tests, graded):
        place = copy.places[id(eq.var)]
        place.needs.append(("node", block))
        place.moves = True
        self.expression(copy, eq.slope, block, tests, graded)
        if graded:
            self.want(copy, eq.slope, 0)
        if eq.start:
            self.start(copy, eq.var, eq.start, block, tests)
        for arm in eq.arms:
            self.condition(copy, arm.event, block, tests, graded)
            place.resets.append((copy, arm.value))
            self.expression(copy, arm.value, block, tests, False)

    def condition(self, copy, cond, block, tests, graded):
        for e in values_of(cond):
            self.expression(copy, e, block, tests, graded)
            if graded and cond.kind == "event":
                self.want(copy, e, 1)

    def new_block(self, parent, *conds):
        """A block inside another, which also needs what the tests among these conditions read."""
        block = Block()
        self.blocks.append(block)
        block.needs.append(("node", parent))
        for copy, cond in conds:
            if cond.kind == "test":
                block.needs.append(("reads", copy, cond.value))
        return block

    def body(self, copy, body, block, tests, graded):
        for v in body.variables:
            self.declare(copy, v, block, tests)
        self.equations(copy, body.eqs, block, tests, graded)

    def reset(self, copy, eq, block, tests, graded):
        inner = self.new_block(block, (copy, eq.cond))
        self.equations(copy, eq.eqs, inner, tests, graded)
        self.condition(copy, eq.cond, block, tests, graded)

    def present(self, copy, eq, block, tests, graded):
        conds = [(copy, arm.cond) for arm in eq.arms]
        for _, cond in conds:
            self.condition(copy, cond, block, tests, graded)
        for body in bodies(eq):
            self.body(copy, body, self.new_block(block, *conds), tests, False)

    def automaton(self, copy, eq, block, tests, graded):
        strong = [(copy, m.cond) for s in eq.states for m in s.moves if m.strong]
        for state in eq.states:
            guard, inner = self.new_block(block), self.new_block(block, *strong)
            self.body(copy, state.body, inner, tests, graded)
            for move in state.moves:
                self.condition(copy, move.cond, guard if move.strong else inner, tests, graded)

    # what is read

    def direct(self, copy, root):
        """The places that an occurrence reads, and those that it reads by `last`."""
        key = (id(copy), id(root))
        if key not in self.reading:
            places, lasts, todo = set(), set(), [(copy, root)]
            while todo:
                c, e = todo.pop()
                if e.kind == "last":
                    lasts.add(c.places[id(e.var)])
                elif id(e) in c.inner:
                    todo.append((c.inner[id(e)], c.inner[id(e)].decl.results[0]))
                elif e.kind == "name":
                    places.add(c.places[id(e.var)])
                elif e.kind == "flow" and e.sign == "fby":
                    todo.append((c, e.parts[0]))
                elif e.kind != "pre":
                    todo.extend((c, p) for p in getattr(e, "parts", []))
            self.reading[key] = (places, lasts)
        return self.reading[key]

    def led_to(self, lasts):
        """These places, and those to which their first values lead by `last`."""
        found, todo = set(), list(lasts)
        while todo:
            place = todo.pop()
            if place not in found:
                found.add(place)
                for copy, value, _ in place.starts:
                    todo.extend(self.direct(copy, value)[1])
        return found

    def reads(self, copy, e):
        places, lasts = self.direct(copy, e)
        found = set(places)
        for place in self.led_to(lasts):
            for start_copy, value, block in place.starts:
                found.add(block)
                found |= self.direct(start_copy, value)[0]
        return found

    def value_reads(self, copy, value, result):
        """As `reads`, for one of several results of a call too."""
        if result is None:
            return self.reads(copy, value)
        inner = copy.inner[id(value)]
        return self.reads(inner, inner.decl.results[result])

    def needs_of(self, node):
        found = set()
        for need in node.needs:
            found |= {need[1]} if need[0] == "node" else self.reads(need[1], need[2])
        if isinstance(node, Place):
            found |= self.needs_of_values(node)
        return found

    def needs_of_values(self, place):
        found = set()
        for copy, value, result in place.plain:
            found |= self.value_reads(copy, value, result)
        for copy, value in place.resets:
            found |= self.reads(copy, value)
        for copy, value, _ in place.starts:
            found |= self.reads(copy, value)
            if place in self.led_to(self.direct(copy, value)[1]):
                found.add(place)
        return found

    # causality

    def check_causality(self):
        nodes = self.places + self.blocks
        needs = {node: self.needs_of(node) for node in nodes}
        cyclic = on_cycles(nodes, needs)
        for place in self.places:
            if place in cyclic:
                raise Refused("causality", place.at)
        if cyclic:
            reached = leading_to(cyclic, needs)
            raise Refused("causality", next(p for p in self.places if p in reached).at)

    # grades

    def want_of_parts(self, copy, e):
        if e.kind == "if":
            self.want(copy, e.parts[0], 0)
        elif e.kind == "op" and (e.sign not in FLOAT_SIGNS) or e.kind == "call" and e.called is None:
            for p in e.parts:
                self.want(copy, p, 0)

    def want(self, copy, e, most):
        self.wanted.append((copy.numbers[id(e)], copy, e, most))

    def grade(self, copy, e):
        key = (id(copy), id(e))
        if key not in self.grading:
            self.grading[key] = self.grade_anew(copy, e)
        return self.grading[key]

    def grade_anew(self, copy, e):
        if id(e) in copy.inner:
            inner = copy.inner[id(e)]
            return self.grade(inner, inner.decl.results[0])
        if e.kind == "name":
            return self.place_grade(copy.places[id(e.var)])
        if e.kind == "if":
            return max(self.grade(copy, p) for p in e.parts[1:])
        if e.kind == "op" and e.sign in FLOAT_SIGNS:
            return self.float_grade(e.sign, [self.grade(copy, p) for p in e.parts])
        return 0

    def float_grade(self, sign, parts):
        if sign == "*.":
            return max(parts) if 0 in parts else 2
        if sign == "/.":
            return parts[0] if parts[1] == 0 else 2
        return max(parts)

    def place_grade(self, place):
        if place not in self.grading:
            grades = [1 if place.moves else 0]
            for copy, value, result in place.graded:
                if result is None:
                    grades.append(self.grade(copy, value))
                else:
                    inner = copy.inner[id(value)]
                    grades.append(self.grade(inner, inner.decl.results[result]))
            self.grading[place] = max(grades)
        return self.grading[place]

    def check_grades(self):
        for _, copy, e, most in sorted(self.wanted, key=lambda w: w[0]):
            if self.grade(copy, e) > most:
                raise Refused("grade", e.at)


def on_cycles(nodes, needs):
    """The nodes that depend on themselves in one or more steps."""
    found = set()
    for group in components(nodes, needs):
        if len(group) > 1 or group[0] in needs[group[0]]:
            found.update(group)
    return found


def components(nodes, needs):
    """The strongly connected components, after Tarjan, without recursion."""
    order, low, stack, on_stack, groups = {}, {}, [], set(), []
    for root in nodes:
        todo = [] if root in order else [(root, None)]
        while todo:
            node, rest = todo.pop()
            if rest is None:
                order[node] = low[node] = len(order)
                stack.append(node)
                on_stack.add(node)
                rest = iter(needs[node])
            for other in rest:
                if other not in order:
                    todo += [(node, rest), (other, None)]
                    break
                if other in on_stack:
                    low[node] = min(low[node], order[other])
            else:
                close_component(node, order, low, stack, on_stack, groups)
                if todo:
                    above = todo[-1][0]
                    low[above] = min(low[above], low[node])
    return groups


def close_component(node, order, low, stack, on_stack, groups):
    if low[node] != order[node]:
        return
    group = []
    while not group or group[-1] is not node:
        group.append(stack.pop())
        on_stack.discard(group[-1])
    groups.append(group)


def leading_to(targets, needs):
    """The nodes that depend on one of these, themselves included."""
    back = {}
    for node, others in needs.items():
        for other in others:
            back.setdefault(other, []).append(node)
    found, todo = set(), list(targets)
    while todo:
        node = todo.pop()
        if node not in found:
            found.add(node)
            todo.extend(back.get(node, []))
    return found


def check_expanded(program):
    expansion = Expansion(check_sizes(program))
    expansion.check_causality()
    expansion.check_grades()
