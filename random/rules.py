"""The rules of names, types, kinds and first values, over the tree that `reading` gives.

`check_names`, `check_types`, `check_kinds` and `check_first_values` each raise `Refused` at the least position at which
their rule is broken. `check_names` also ties each name to its variable (`var`), constant (`constant`) or declaration
(`called`), which the others need.
"""
from reading import Refused

BUILT_IN = {"float_of_int": ("int", "float"), "truncate": ("float", "int")}
INT_SIGNS = {"+", "-", "*", "/", "mod", "prefix -"}
FLOAT_SIGNS = {"+.", "-.", "*.", "/.", "prefix -."}
BOOL_SIGNS = {"||", "or", "&&", "&", "prefix not"}
COMPARISONS = {"=", "<>", "<", "<=", ">", ">="}


class Variable:
    """A variable of a declaration: a parameter, a local, or a name that is defined at the top (`top`)."""

    def __init__(self, name, at, origin, type=None):
        self.name, self.at, self.origin, self.type = name, at, origin, type
        self.lists = []


def refuse_least(rule, positions):
    if positions:
        raise Refused(rule, min(positions))


# what stands in what


def bodies(eq):
    """The bodies that stand directly in an equation."""
    if eq.kind == "present":
        return [arm.body for arm in eq.arms] + ([eq.other] if eq.other else [])
    if eq.kind == "automaton":
        return [state.body for state in eq.states]
    return []


def conditions(eq):
    if eq.kind == "present":
        return [arm.cond for arm in eq.arms]
    if eq.kind == "automaton":
        return [move.cond for state in eq.states for move in state.moves]
    return [eq.cond] if eq.kind == "reset" else []


def values_of(cond):
    return [cond.value] if cond.kind == "test" else [up.value for up in cond.ups]


def own_values(eq):
    """The expressions of an equation that aren't inside the equations in it."""
    if eq.kind in ("plain", "init"):
        return [eq.value]
    if eq.kind == "der":
        starts = [eq.start] if eq.start else []
        arms = [e for arm in eq.arms for e in values_of(arm.event) + [arm.value]]
        return [eq.slope] + starts + arms
    return [e for cond in conditions(eq) for e in values_of(cond)]


def inner_lists(eq):
    """The lists of equations that stand directly in an equation, with the locals of each."""
    if eq.kind == "reset":
        return [([], eq.eqs)]
    return [(body.locals, body.eqs) for body in bodies(eq)]


def all_parts(expr):
    """An expression and all in it."""
    found, todo = [], [expr]
    while todo:
        e = todo.pop()
        found.append(e)
        todo.extend(getattr(e, "parts", []))
    return found


def all_lists(eqs):
    """All lists of equations in this one, itself first."""
    found, todo = [], [eqs]
    while todo:
        one = todo.pop()
        found.append(one)
        for eq in one:
            todo.extend(inner for _, inner in inner_lists(eq))
    return found


def all_equations(decl):
    return [eq for one in all_lists(decl.eqs) for eq in one]


def all_expressions(decl):
    roots = decl.results + [e for eq in all_equations(decl) for e in own_values(eq)]
    return [part for root in roots for part in all_parts(root)]


def own_definitions(eq):
    """What the equation itself defines: the name, its position, whether other than by `init`, and whether by `init`."""
    if eq.kind == "plain":
        return [(n.text, n.at, True, False) for n in eq.names]
    if eq.kind == "der":
        return [(eq.name.text, eq.name.at, True, eq.start is not None)]
    if eq.kind == "init":
        return [(eq.name.text, eq.name.at, False, True)]
    return []


def definitions(eq):
    """What the equation defines, what stands in it included, less the locals: (name, position, defines, starts)."""
    found = own_definitions(eq)
    for names, inner in inner_lists(eq):
        hidden = {n.text for n in names}
        found.extend(d for part in inner for d in definitions(part) if d[0] not in hidden)
    return found


# names


def declare_variables(decl):
    """The variables of a declaration, in order of position; gives the names that are visible in all of it."""
    variables = [Variable(p.name, p.at, "param", p.type) for p in decl.params]
    visible = {}
    for v in variables:
        visible.setdefault(v.name, v)
    firsts = {}
    for eq in decl.eqs:
        for name, at, _, _ in definitions(eq):
            firsts[name] = min(at, firsts.get(name, at))
    for name, at in firsts.items():
        if name not in visible:
            visible[name] = Variable(name, at, "top")
            variables.append(visible[name])
    for eq in all_equations(decl):
        for body in bodies(eq):
            body.variables = [Variable(n.text, n.at, "local") for n in body.locals]
            variables.extend(body.variables)
    decl.variables = sorted(variables, key=lambda v: v.at)
    return visible


class Scope:
    """Ties the names of one declaration."""

    def __init__(self, decl, before, unknown):
        self.before, self.unknown = before, unknown
        self.visible = declare_variables(decl)
        for result in decl.results:
            self.expression(result, self.visible)
        self.equations(decl.eqs, self.visible)

    def expression(self, root, visible):
        for e in all_parts(root):
            if e.kind == "name":
                e.var, e.constant = visible.get(e.name), None
                if e.var is None:
                    e.constant = self.before.get(e.name)
                    if e.constant is None or e.constant.kind != "constant":
                        self.unknown.append(e.at)
            elif e.kind == "last":
                e.var = visible.get(e.name)
                if e.var is None:
                    self.unknown.append(e.name_at)
            elif e.kind == "call":
                self.call(e)

    def call(self, e):
        e.called = self.before.get(e.name)
        if e.called is None or e.called.kind == "constant":
            e.called = None
            if e.name not in BUILT_IN:
                self.unknown.append(e.at)

    def condition(self, cond, visible):
        for e in values_of(cond):
            self.expression(e, visible)

    def equations(self, eqs, visible):
        for eq in eqs:
            self.equation(eq, visible)

    def equation(self, eq, visible):
        if eq.kind == "plain":
            eq.vars = [visible[n.text] for n in eq.names]
        elif eq.kind in ("der", "init"):
            eq.var = visible[eq.name.text]
        if eq.kind in ("plain", "der", "init"):
            for e in own_values(eq):
                self.expression(e, visible)
        elif eq.kind == "reset":
            self.equations(eq.eqs, visible)
            self.condition(eq.cond, visible)
        elif eq.kind == "present":
            for arm in eq.arms:
                self.condition(arm.cond, visible)
            for body in bodies(eq):
                self.equations(body.eqs, self.inside(body, visible))
        else:
            self.automaton(eq, visible)

    def inside(self, body, visible):
        if not body.variables:
            return visible
        visible = dict(visible)
        for v in body.variables:
            visible[v.name] = v
        return visible

    def automaton(self, eq, visible):
        for state in eq.states:
            inner = self.inside(state.body, visible)
            self.equations(state.body.eqs, inner)
            for move in state.moves:
                self.condition(move.cond, visible if move.strong else inner)


def names_unknown(program):
    before, unknown = {}, []
    for decl in program:
        Scope(decl, before, unknown)
        before.setdefault(decl.name, decl)
    return unknown


def names_twice(program):
    found, before, constants = [], set(BUILT_IN), set()
    for decl in program:
        if decl.name in before:
            found.append(decl.at)
        seen = set()
        for v in decl.variables:
            if v.name in seen or v.name in constants:
                found.append(v.at)
            seen.add(v.name)
        before.add(decl.name)
        if decl.kind == "constant":
            constants.add(decl.name)
    return found


def twice_in_list(eqs):
    found, defined, started = [], set(), set()
    for eq in eqs:
        firsts, defines, starts = {}, set(), set()
        for name, at, is_defined, is_started in definitions(eq):
            firsts[name] = min(at, firsts.get(name, at))
            if is_defined:
                defines.add(name)
            if is_started:
                starts.add(name)
        found.extend(firsts[n] for n in (defines & defined) | (starts & started))
        defined |= defines
        started |= starts
    return found


def twice_on_left(eq):
    found, seen = [], set()
    for name in eq.names if eq.kind == "plain" else []:
        if name.text in seen:
            found.append(name.at)
        seen.add(name.text)
    return found


def defined_twice(program):
    found = []
    for decl in program:
        params = {p.name for p in decl.params}
        for eq in decl.eqs:
            found.extend(at for name, at, _, _ in definitions(eq) if name in params)
        for one in all_lists(decl.eqs):
            found.extend(twice_in_list(one))
            for eq in one:
                found.extend(twice_on_left(eq))
    return found


def undefined(program):
    found = []
    for decl in program:
        for eq in all_equations(decl):
            for body in bodies(eq):
                defined = {d[0] for inner in body.eqs for d in definitions(inner)}
                found.extend(n.at for n in body.locals if n.text not in defined)
    return found


def sizes(e):
    """The numbers of arguments and of results of what is called."""
    if e.called is None:
        return 1, 1
    return len(e.called.params), len(e.called.results)


def arity(program):
    found = []
    for decl in program:
        several = {id(eq.value): eq for eq in all_equations(decl) if eq.kind == "plain" and len(eq.names) > 1}
        for e in all_expressions(decl):
            if e.kind == "call":
                args, results = sizes(e)
                wanted = len(several[id(e)].names) if id(e) in several else 1
                if len(e.parts) != args or results != wanted:
                    found.append(e.at)
    return found


def branch(program):
    found = []
    for decl in program:
        for eq in all_equations(decl):
            states = eq.states if eq.kind == "automaton" else []
            seen = set()
            for state in states:
                if state.name.text in seen:
                    found.append(state.name.at)
                seen.add(state.name.text)
            found.extend(m.target.at for s in states for m in s.moves if m.target.text not in seen)
    return found


def main_wrong(program):
    mains = [d for d in program if d.name == "main"]
    if not mains:
        return [(1, 1)]
    if mains[0].kind != "hybrid":
        return [mains[0].at]
    return [e.at for e in mains[0].results if e.kind != "name" or e.var is None]


def last_of_param(program):
    return [
        e.at for d in program for e in all_expressions(d) if e.kind == "last" and e.var.origin == "param"
    ]


def check_names(program):
    refuse_least("name-unknown", names_unknown(program))
    refuse_least("name-twice", names_twice(program))
    refuse_least("defined-twice", defined_twice(program))
    refuse_least("undefined", undefined(program))
    refuse_least("arity", arity(program))
    refuse_least("branch", branch(program))
    refuse_least("main", main_wrong(program))
    refuse_least("last", last_of_param(program))


# types


class Types:
    """Collects the equalities, then solves them in order of position."""

    def __init__(self, program):
        self.equalities = []
        self.parent = {"bool": "bool", "int": "int", "float": "float"}
        for decl in program:
            self.declaration(decl)

    def fresh(self):
        t = len(self.parent)
        self.parent[t] = t
        return t

    def equal(self, at, *types):
        for t in types[1:]:
            self.equalities.append((at, types[0], t))

    def declaration(self, decl):
        for v in decl.variables:
            v.t = self.fresh()
            if v.type:
                self.equal(v.at, v.t, v.type)
        decl.param_types = [next(v for v in decl.variables if v.at == p.at).t for p in decl.params]
        decl.result_types = [self.expression(e) for e in decl.results]
        for eq in all_equations(decl):
            self.equation(eq)

    def equation(self, eq):
        if eq.kind == "plain" and len(eq.names) > 1:
            self.equal_several(eq)
        elif eq.kind in ("plain", "init"):
            var = eq.vars[0] if eq.kind == "plain" else eq.var
            self.equal(eq.at, var.t, self.expression(eq.value))
        elif eq.kind == "der":
            values = [eq.slope] + ([eq.start] if eq.start else []) + [arm.value for arm in eq.arms]
            self.equal(eq.at, "float", eq.var.t, *[self.expression(e) for e in values])
            for arm in eq.arms:
                self.condition(arm.event)
        for cond in conditions(eq):
            self.condition(cond)

    def equal_several(self, eq):
        results = [self.fresh() for _ in eq.names]
        for var, t in zip(eq.vars, results):
            self.equal(eq.at, var.t, t)
        self.arguments(eq.value)
        for t, result in zip(results, eq.value.called.result_types):
            self.equal(eq.value.at, t, result)

    def condition(self, cond):
        if cond.kind == "test":
            self.equal(cond.value.at, "bool", self.expression(cond.value))
        else:
            for up in cond.ups:
                self.equal(up.at, "float", self.expression(up.value))

    def expression(self, root):
        """The type of an expression; its parts come first, without recursion."""
        for e in reversed(all_parts(root)):
            e.t = self.fresh()
            self.one(e)
        return root.t

    def arguments(self, e):
        types = [self.expression(p) for p in e.parts]
        for t, param in zip(types, e.called.param_types):
            self.equal(e.at, t, param)

    def one(self, e):
        parts = [p.t for p in getattr(e, "parts", [])]
        if e.kind == "literal":
            self.equal(e.at, e.t, e.type)
        elif e.kind == "name":
            self.equal(e.at, e.t, e.var.t if e.var else e.constant.result_types[0])
        elif e.kind == "last":
            self.equal(e.at, e.t, e.var.t)
        elif e.kind == "if":
            self.equal(e.at, parts[0], "bool")
            self.equal(e.at, e.t, *parts[1:])
        elif e.kind in ("flow", "pre"):
            self.equal(e.at, e.t, *parts)
        elif e.kind == "call":
            self.call(e, parts)
        else:
            self.operator(e, parts)

    def call(self, e, parts):
        if e.called is None:
            given, result = BUILT_IN[e.name]
            self.equal(e.at, given, *parts)
            self.equal(e.at, result, e.t)
            return
        for t, param in zip(parts, e.called.param_types):
            self.equal(e.at, t, param)
        self.equal(e.at, e.t, e.called.result_types[0])

    def operator(self, e, parts):
        for signs, t in ((INT_SIGNS, "int"), (FLOAT_SIGNS, "float"), (BOOL_SIGNS, "bool")):
            if e.sign in signs:
                self.equal(e.at, t, e.t, *parts)
        if e.sign in COMPARISONS:
            self.equal(e.at, "bool", e.t)
            self.equal(e.at, *parts)

    def find(self, t):
        while self.parent[t] != t:
            self.parent[t] = self.parent[self.parent[t]]
            t = self.parent[t]
        return t

    def solve(self):
        for at, a, b in sorted(self.equalities, key=lambda q: q[0]):
            a, b = self.find(a), self.find(b)
            if isinstance(a, str) and isinstance(b, str):
                if a != b:
                    raise Refused("type-clash", at)
            elif isinstance(a, str):
                self.parent[b] = a
            else:
                self.parent[a] = b


def check_types(program):
    types = Types(program)
    types.solve()
    refuse_least(
        "type-open", [v.at for d in program for v in d.variables if not isinstance(types.find(v.t), str)]
    )


# kinds

CONTEXT = {"constant": "A", "function": "A", "node": "D", "hybrid": "C"}


class Kinds:
    """Contexts: A (combinatorial), R (A and `last`), D (discrete), C (hybrid)."""

    def __init__(self, program):
        self.found = []
        for decl in program:
            context = CONTEXT[decl.kind]
            for e in decl.results:
                self.expression(e, context)
            self.equations(decl.eqs, context)

    def allow(self, context, contexts, at):
        if context not in contexts:
            self.found.append(at)

    def expression(self, root, context):
        todo = [(root, context)]
        while todo:
            e, c = todo.pop()
            todo.extend(zip(getattr(e, "parts", []), self.part_contexts(e, c)))

    def part_contexts(self, e, c):
        inner = [c] * len(getattr(e, "parts", []))
        if e.kind == "call" and e.called and e.called.kind in ("node", "hybrid"):
            wanted = CONTEXT[e.called.kind]
            self.allow(c, wanted, e.at)
            return [wanted] * len(inner)
        if e.kind in ("flow", "pre"):
            self.allow(c, "D", e.at)
            return ["D"] * len(inner)
        if e.kind == "last":
            self.allow(c, "RD", e.at)
        if e.kind == "if":
            branches = "A" if c in "AC" else "R"
            return [c, branches, branches]
        return inner

    def equations(self, eqs, context):
        for eq in eqs:
            self.equation(eq, context)

    def equation(self, eq, c):
        if eq.kind == "plain":
            self.allow(c, "ADC", eq.at)
            self.expression(eq.value, c)
        elif eq.kind == "der":
            self.der(eq, c)
        elif eq.kind == "init":
            self.allow(c, "DC", eq.at)
            self.expression(eq.value, "R")
        else:
            self.with_blocks(eq, c)

    def der(self, eq, c):
        self.allow(c, "C", eq.at)
        self.expression(eq.slope, "C")
        if eq.start:
            self.expression(eq.start, "R")
        for arm in eq.arms:
            for up in arm.event.ups:
                self.expression(up.value, "A")
            self.expression(arm.value, "R")

    def with_blocks(self, eq, c):
        self.allow(c, "DC", eq.at)
        if eq.kind == "present" and eq.other and c == "C":
            self.found.append(eq.at)
        for cond in conditions(eq):
            self.condition(cond, c)
        inner = "D" if eq.kind == "present" else c
        for _, one in inner_lists(eq):
            self.equations(one, inner)

    def condition(self, cond, c):
        if cond.kind == "test":
            self.allow(c, "D", cond.at)
            self.expression(cond.value, "R")
        else:
            self.allow(c, "C", cond.at)
            for up in cond.ups:
                self.expression(up.value, "A")


def check_kinds(program):
    refuse_least("kind", Kinds(program).found)


# first values


class Levels:
    """Constraints on who is late, in order of position.

    A constraint is one of: `late` of one entry, `early` of one entry, or a pair by which the second is late where the
    first is. `wrong` is a constraint that nothing meets.
    """

    def __init__(self, program):
        self.constraints = []
        for decl in program:
            self.hybrid = decl.kind == "hybrid"
            self.own_lists(decl.eqs, [v for v in decl.variables if v.origin == "top"], None)
            self.variables(decl)
            for e in decl.results:
                self.early(e.at, e)
                self.expression(e, None, False)
            self.equations(decl.eqs, None)

    def add(self, at, kind, *entries):
        self.constraints.append((at, kind, [id(e) for e in entries]))

    def early(self, at, e):
        self.add(at, "early", e)

    def own_lists(self, eqs, variables, arm):
        """Says of each variable in which list it is declared and inside which arm of a hybrid `present`."""
        for v in variables:
            v.list, v.arm = eqs, arm
        for eq in eqs:
            for body in bodies(eq):
                opens = self.hybrid and eq.kind == "present" and arm is None
                self.own_lists(body.eqs, body.variables, body if opens else arm)
            if eq.kind == "reset":
                self.own_lists(eq.eqs, [], arm)

    def variables(self, decl):
        for v in decl.variables:
            v.anchored = v.origin != "param" and self.is_anchored(v, v.list)
            if v.origin != "param" and not v.anchored and not self.surely(v, v.list):
                self.add(v.at, "wrong")

    def is_anchored(self, v, eqs):
        for eq in eqs:
            if eq.kind == "init" and eq.var is v or eq.kind == "der" and eq.var is v and eq.start:
                return True
            if eq.kind == "reset" and self.is_anchored(v, eq.eqs):
                return True
        return False

    def surely(self, v, eqs):
        return any(self.surely_by(v, eq) for eq in eqs)

    def surely_by(self, v, eq):
        if eq.kind == "plain":
            return v in eq.vars
        if eq.kind == "der":
            return eq.var is v and eq.start is not None
        if eq.kind == "reset":
            return self.surely(v, eq.eqs)
        if eq.kind == "automaton" or eq.kind == "present" and eq.other:
            return all(self.surely(v, body.eqs) for body in bodies(eq))
        return False

    def expression(self, root, arm, is_reset_value):
        for e in all_parts(root):
            parts = getattr(e, "parts", [])
            if e.kind == "name":
                if e.var:
                    self.add(e.at, "pair", e.var, e)
            elif e.kind == "last":
                self.last(e, arm, is_reset_value)
            elif e.kind == "pre":
                self.add(e.at, "late", e)
                self.early(e.at, parts[0])
            elif e.kind == "flow":
                self.add(e.at, "pair", parts[0], e)
                if e.sign == "fby":
                    self.early(e.at, parts[1])
            elif e.kind == "call" and e.called:
                for p in parts:
                    self.early(e.at, p)
            else:
                for p in parts:
                    self.add(e.at, "pair", p, e)

    def last(self, e, arm, is_reset_value):
        self.early(e.at, e.var)
        outside = arm is not None and e.var.arm is not arm
        if not (e.var.anchored or outside or is_reset_value):
            self.add(e.at, "late", e)

    def equations(self, eqs, arm):
        for eq in eqs:
            self.equation(eq, eqs, arm)

    def equation(self, eq, eqs, arm):
        if eq.kind == "plain":
            self.plain(eq, eqs, arm)
        elif eq.kind in ("init", "der"):
            self.values(eq, arm)
        for cond in conditions(eq):
            self.condition(cond, arm)
        for body in bodies(eq):
            opens = self.hybrid and eq.kind == "present" and arm is None
            self.equations(body.eqs, body if opens else arm)
        if eq.kind == "reset":
            self.equations(eq.eqs, arm)

    def plain(self, eq, eqs, arm):
        self.expression(eq.value, arm, False)
        for v in eq.vars:
            if v.list is eqs:
                self.add(eq.at, "pair", eq.value, v)
            else:
                self.early(eq.at, eq.value)

    def values(self, eq, arm):
        if eq.kind == "init":
            values = [eq.value]
        else:
            values = [eq.slope] + ([eq.start] if eq.start else [])
            for one in eq.arms:
                self.condition(one.event, arm)
                self.early(eq.at, one.value)
                self.expression(one.value, arm, True)
        for e in values:
            self.early(eq.at, e)
            self.expression(e, arm, False)

    def condition(self, cond, arm):
        for e in values_of(cond):
            self.early(e.at, e)
            self.expression(e, arm, False)

    def solve(self):
        late, early, leads = set(), set(), {}
        ordered = sorted(self.constraints, key=lambda c: c[0])
        for k, (at, kind, entries) in enumerate(ordered):
            if kind == "wrong":
                raise Refused("init", at)
            if kind == "late":
                self.spread(entries[0], late, leads)
            elif kind == "early":
                early.add(entries[0])
            else:
                leads.setdefault(entries[0], []).append(entries[1])
                if entries[0] in late:
                    self.spread(entries[1], late, leads)
            if (k + 1 == len(ordered) or ordered[k + 1][0] != at) and late & early:
                raise Refused("init", at)

    def spread(self, entry, late, leads):
        todo = [entry]
        while todo:
            e = todo.pop()
            if e not in late:
                late.add(e)
                todo.extend(leads.get(e, []))


def check_first_values(program):
    Levels(program).solve()
