"""Makes random programs by seed.

`program(seed)` gives a text that is well formed and mostly well typed and initialised; a share of them has cycles
or asks a moving value to stand still. `damaged(seed)` gives such a text in which one or two tokens are exchanged,
dropped, put twice or replaced. `python3 make.py SEED [damaged]` prints one.
"""
import random
import sys

ANY = 10**9
TYPES = ["float", "float", "float", "int", "bool"]
COMPARISONS = ["=", "<>", "<", "<=", ">", ">="]
CONTEXTS = {"function": "A", "node": "D", "hybrid": "C"}


class Var:
    """A variable: `rank` orders instantaneous reads, `grade` says how it is meant to move, `mode` how it is defined."""

    def __init__(self, name, type, rank, origin, grade=0, mode="", late=False):
        self.name, self.type, self.rank, self.origin = name, type, rank, origin
        self.grade, self.mode, self.late, self.anchored, self.arm = grade, mode, late, False, None


class Decl:
    def __init__(self, kind, name, params, results, cost, linear):
        self.kind, self.name, self.params, self.results = kind, name, params, results
        self.cost, self.linear = cost, linear


class Place:
    """Where an expression or equation is made: the context and what may be read there."""

    def __init__(self, context, vars, rank=ANY, grade=3, late=False, arm=None, any_last=False, first=False):
        self.context, self.vars, self.rank, self.grade = context, vars, rank, grade
        self.late, self.arm, self.any_last, self.first = late, arm, any_last, first

    def but(self, **changes):
        new = Place(self.context, self.vars, self.rank, self.grade, self.late, self.arm)
        new.any_last, new.first = self.any_last, self.first
        new.__dict__.update(changes)
        return new


class Maker:
    def __init__(self, seed):
        self.rng = random.Random(seed)
        self.count, self.decls, self.constants, self.cost = 0, [], [], 0
        r = self.rng.random()
        self.large = r < 0.06
        self.tiny = r > 0.7
        self.deep = 3 if self.large else self.rng.choice([1, 2, 2, 3])
        self.leaks = {
            what: self.rng.choice(rates)
            for what, rates in {
                "rank": [0, 0, 0, 0.01, 0.03, 0.1],
                "grade": [0, 0.03, 0.1, 0.3, 0.6],
                "test": [0, 0, 0, 0.4],
                "late": [0] * 12 + [0.1],
                "kind": [0] * 25 + [0.05],
                "type": [0] * 25 + [0.03],
                "feedback": [0, 0, 0.1, 0.5],
            }.items()
        }
        self.most_cost = self.rng.choice([30, 200, 800, 3000] + [12000] * (self.rng.random() < 0.05))

    # small choices

    def chance(self, p):
        return self.rng.random() < p

    def leaks_by(self, what):
        return self.chance(self.leaks[what])

    def fresh(self, stem):
        self.count += 1
        mark = self.rng.choice(["é", "_", "ß"]) if self.chance(0.03) else ""
        return f"{mark}{stem}{self.count}"

    def some(self, low, high):
        return self.rng.randint(low, high)

    # expressions: pairs of tokens and level, where a greater level binds more tightly

    def fit(self, expr, level):
        tokens, own = expr
        if own < level or self.chance(0.04):
            return ["("] + tokens + [")"]
        return tokens

    def infix(self, sign, level, left, right, left_level=None):
        return self.fit(left, level if left_level is None else left_level) + [sign] + self.fit(right, level + 1), level

    def literal(self, type):
        if type == "bool":
            return [self.rng.choice(["true", "false"])], 7
        if type == "int":
            return [str(self.some(0, 9))], 7
        text = self.rng.choice(["0.0", "1.0", "2.5", "3.", "0.125", "1e2", "4.5e-1", "12.75"])
        return (["-", text], 6) if self.chance(0.2) else ([text], 7)

    def readable(self, type, p):
        found = []
        for v in p.vars:
            if v.type != type:
                continue
            if v.rank >= p.rank and not self.leaks_by("rank"):
                continue
            if v.grade > p.grade and not self.leaks_by("grade"):
                continue
            if v.late and not p.late and not self.leaks_by("late"):
                continue
            found.append(v)
        return found

    def lasts(self, type, p):
        if p.context not in "RD" and not self.leaks_by("kind"):
            return []
        found = []
        for v in p.vars:
            early = v.anchored or p.any_last or (p.arm is not None and v.arm is not p.arm)
            near = v.rank < p.rank or v.rank == p.rank and not p.first or self.leaks_by("rank")
            if v.type == type and v.origin != "param" and near and not v.late and (early or p.late):
                found.append(v)
        return found

    def leaf(self, type, p):
        if self.leaks_by("type"):
            type = self.rng.choice(TYPES)
        lasts = self.lasts(type, p) if self.chance(0.4) else []
        if lasts:
            return ["last", self.rng.choice(lasts).name], 7
        vars = self.readable(type, p)
        if vars and self.chance(0.8):
            return [self.rng.choice(vars).name], 7
        constants = [name for name, t in self.constants if t == type]
        if constants and self.chance(0.3):
            return [self.rng.choice(constants)], 7
        return self.literal(type)

    def expr(self, type, p, depth=None):
        depth = self.some(0, self.deep) if depth is None else depth
        if depth <= 0 or self.chance(0.15):
            return self.leaf(type, p)
        r = self.rng.random()
        if r < 0.25:
            called = self.call_of(type, p, depth)
            if called:
                return called
        if r < 0.4:
            return self.choice(type, p, depth)
        if r < 0.6 and (p.context == "D" or self.leaks_by("kind")):
            return self.delayed(type, p, depth)
        return {"float": self.float_op, "int": self.int_op, "bool": self.bool_op}[type](p, depth - 1)

    def choice(self, type, p, depth):
        still = p.but(grade=min(p.grade, 0)) if p.context in "AC" and p.grade < 3 else p
        inner = p.but(context="A" if p.context in "AC" else "R")
        cond = self.expr("bool", still, depth - 1)
        first, second = self.expr(type, inner, depth - 1), self.expr(type, inner, depth - 1)
        return ["if"] + cond[0] + ["then"] + first[0] + ["else"] + second[0], 0

    def delayed(self, type, p, depth):
        back = p.but(rank=ANY, late=False, context="D")
        here = p.but(context="D")
        r = self.rng.random()
        if r < 0.2 and (p.late or self.leaks_by("late")):
            return ["pre"] + self.fit(self.expr(type, back, depth - 1), 6), 6
        left = self.expr(type, here, depth - 1)
        if r < 0.6:
            return self.fit(left, 1) + ["fby"] + self.fit(self.expr(type, back, depth - 1), 0), 0
        right = self.expr(type, here.but(late=True), depth - 1)
        return self.fit(left, 1) + ["->"] + self.fit(right, 0), 0

    def float_op(self, p, depth):
        sign = self.rng.choice(["+.", "-.", "+.", "-.", "*.", "/.", "neg", "convert"])
        still = p.but(grade=0) if p.grade < 3 else p
        if sign == "neg":
            return ["-."] + self.fit(self.expr("float", p, depth), 6), 6
        if sign == "convert":
            return ["float_of_int", "("] + self.expr("int", still, depth)[0] + [")"], 7
        if sign in ("+.", "-."):
            return self.infix(sign, 4, self.expr("float", p, depth), self.expr("float", p, depth))
        sides = [p, p if p.grade == 2 else still]
        if sign == "*.":
            self.rng.shuffle(sides)
        return self.infix(sign, 5, *[self.expr("float", side, depth) for side in sides])

    def int_op(self, p, depth):
        still = p.but(grade=0) if p.grade < 3 else p
        sign = self.rng.choice(["+", "-", "*", "/", "mod", "neg", "convert"])
        if sign == "neg":
            return ["-"] + self.fit(self.expr("int", still, depth), 6), 6
        if sign == "convert":
            return ["truncate", "("] + self.expr("float", still, depth)[0] + [")"], 7
        level = 4 if sign in "+-" else 5
        return self.infix(sign, level, self.expr("int", still, depth), self.expr("int", still, depth))

    def bool_op(self, p, depth):
        still = p.but(grade=0) if p.grade < 3 else p
        sign = self.rng.choice(["or", "||", "&", "&&", "not", "cmp", "cmp", "cmp"])
        if sign == "not":
            return ["not"] + self.fit(self.expr("bool", still, depth), 6), 6
        if sign == "cmp":
            type = self.rng.choice(TYPES)
            sides = [self.expr(type, still, depth) for _ in "ab"]
            return self.infix(self.rng.choice(COMPARISONS), 3, *sides, left_level=4)
        level = 1 if sign in ("or", "||") else 2
        return self.infix(sign, level, self.expr("bool", still, depth), self.expr("bool", still, depth))

    def may_call(self, d, p):
        kinds = {"A": "function", "R": "function", "D": "function node", "C": "function hybrid"}[p.context]
        return (d.kind in kinds or self.leaks_by("kind")) and self.cost + d.cost <= self.most_cost

    def arguments(self, d, p, depth):
        self.cost += d.cost
        tokens = ["("]
        for k, (type, grade) in enumerate(d.params):
            most = grade
            if d.kind == "function":
                most = min(p.grade, 1) if d.linear and type == "float" else 0
            q = p.but(grade=most if p.grade < 3 else 3, late=False)
            if d.kind != "function" and self.leaks_by("feedback"):
                q.rank = ANY
            tokens += ([","] if k else []) + self.expr(type, q, depth - 1)[0]
        return tokens + [")"]

    def call_of(self, type, p, depth):
        fits = [
            d
            for d in self.decls
            if len(d.results) == 1
            and d.results[0][0] == type
            and (d.kind != "hybrid" or d.results[0][1] <= p.grade)
            and self.may_call(d, p)
        ]
        if not fits:
            return None
        d = self.rng.choice(fits[-6:])
        return [d.name] + self.arguments(d, p, depth), 7

    # equations

    def give_mode(self, v, context):
        r = self.rng.random()
        if context == "A":
            v.mode = "plain"
        elif context == "D":
            v.mode = "plain" if r < 0.5 else "anchored" if r < 0.8 else "sure"
            v.late = v.mode == "plain" and self.chance(0.08)
        elif v.type == "float":
            v.mode = "der" if r < 0.35 else "plain" if r < 0.65 else "anchored" if r < 0.87 else "sure"
            v.grade = {"der": 1, "plain": self.rng.choice([0, 1, 1, 2])}.get(v.mode, self.rng.choice([0, 1]))
        else:
            v.mode = "plain" if r < 0.35 else "anchored" if r < 0.9 else "sure"
        v.anchored = v.mode in ("anchored", "der")

    def new_vars(self, count, context, low, high, origin, arm=None):
        vars = []
        for _ in range(count):
            v = Var(self.fresh(self.rng.choice("xyzw")), self.rng.choice(TYPES), self.rng.uniform(low, high), origin)
            self.give_mode(v, context)
            v.arm = arm
            vars.append(v)
        return vars

    def tuple_vars(self, p, low, high, origin):
        """Variables that one call with several results defines, and that call's declaration."""
        fits = [d for d in self.decls if len(d.results) > 1 and self.may_call(d, p)]
        if not fits or self.chance(0.5):
            return [], None
        d = self.rng.choice(fits)
        rank = self.rng.uniform(low, high)
        made = []
        for k, (type, grade) in enumerate(d.results):
            v = Var(self.fresh("t"), type, rank + k * 1e-6, origin, grade if p.context == "C" else 0, "tuple")
            v.arm = p.arm
            made.append(v)
        return made, d

    def value(self, v, p, early=True):
        q = p.but(rank=v.rank, late=not early and v.late)
        if p.context == "C":
            q.grade = v.grade
        return self.expr(v.type, q)[0]

    def own_list(self, vars, tuples, p, depth):
        """The equations of the list that declares these variables."""
        eqs, rest, sure = [], [], []
        for v in vars:
            if v.mode == "plain":
                eqs.append([v.name, "="] + self.value(v, p, early=False))
            elif v.mode == "der":
                eqs.append(self.der(v, p, True))
            elif v.mode == "anchored":
                rest += self.anchored(v, p, eqs)
            else:
                sure.append(v)
        for made, d in tuples:
            names = ["("] + [t for v in made for t in (",", v.name)][1:] + [")"]
            eqs.append(names + ["=", d.name] + self.arguments(d, p.but(rank=made[0].rank), 2))
        eqs += self.groups(rest, sure, p, depth)
        self.rng.shuffle(eqs)
        return eqs

    def anchored(self, v, p, eqs):
        """Gives the variable its first value; gives it back if more is to define it."""
        init = ["init", v.name, "="] + self.expr(v.type, p.but(context="R", rank=v.rank, grade=3, first=True))[0]
        if self.chance(0.1):
            init = ["reset"] + init + ["every"] + self.condition(p, v.rank)
        if p.context == "C" and v.grade == 1 and self.chance(0.3):
            return eqs.extend([init, self.der(v, p, False)]) or []
        eqs.append(init)
        return [v] if self.chance(0.9) else []

    def der(self, v, p, start):
        tokens = ["der", v.name, "="] + self.expr("float", p.but(rank=ANY, grade=0))[0]
        if start:
            tokens += ["init"] + self.expr("float", p.but(context="R", rank=v.rank, grade=3, first=True))[0]
        for k in range(self.some(1, 2) if self.chance(0.4) else 0):
            q = p.but(context="R", rank=v.rank, grade=3, any_last=True)
            tokens += ["|" if k else "reset"] + self.event(p) + ["->"] + self.expr("float", q)[0]
        return tokens

    def groups(self, rest, sure, p, depth):
        """Equations with blocks that define these variables, the second ones surely."""
        vars, eqs = rest + sure, []
        self.rng.shuffle(vars)
        while vars:
            part, vars = vars[:3], vars[3:]
            eqs.append(self.with_blocks(part, [v for v in part if v in sure], p, depth))
        return eqs

    def with_blocks(self, vars, sure, p, depth):
        forms = ["automaton", "automaton", "reset"]
        if p.context == "D" or not sure:
            forms += ["present", "present", "present"]
        form = self.rng.choice(forms)
        low = ANY if self.leaks_by("test") else min(v.rank for v in vars)
        if form == "reset":
            eqs = self.inner_list(vars, sure, p, depth)
            return ["reset"] + self.joined(eqs) + ["every"] + self.condition(p, low)
        make = self.automaton if form == "automaton" else self.present
        return make(vars, sure, p, depth, low)

    def inner_list(self, vars, sure, p, depth):
        """Equations of a list that doesn't declare these variables; at least one."""
        eqs, deeper = [], []
        for k, v in enumerate(vars):
            if v not in sure and k and self.chance(0.3):
                continue
            if depth > 0 and self.chance(0.2):
                deeper.append(v)
            elif p.context == "C" and v.type == "float" and v.grade == 1 and (v not in sure or not v.anchored):
                start = v in sure
                plain = self.chance(0.3)
                eqs.append([v.name, "="] + self.value(v, p) if plain else self.der(v, p, start))
            else:
                eqs.append([v.name, "="] + self.value(v, p))
        if deeper:
            eqs.append(self.with_blocks(deeper, [v for v in deeper if v in sure], p, depth - 1))
        self.rng.shuffle(eqs)
        return eqs

    def body_parts(self, vars, sure, p, depth):
        """The words before `do` and the equations of a body, and where its conditions stand."""
        eqs, tokens, q = [], [], p
        if self.chance(0.25) and depth > 0:
            low = min(v.rank for v in vars)
            made = self.new_vars(self.some(1, 2), p.context, low - 1, low + 2, "local", p.arm)
            made_several, d = self.tuple_vars(p, low - 1, low + 2, "local")
            q = p.but(vars=p.vars + made + made_several)
            eqs = self.own_list(made, [(made_several, d)] if d else [], q, depth - 1)
            tokens = ["local"] + [t for v in made + made_several for t in (",", v.name)][1:] + ["in"]
        if sure or self.chance(0.9):
            eqs += self.inner_list(vars, sure, q, depth)
        return tokens + ["do"] + self.joined(eqs), q

    def body(self, vars, sure, p, depth):
        return self.body_parts(vars, sure, p, depth)[0] + ["done"]

    def present(self, vars, sure, p, depth, low):
        tokens = ["present"] + (["|"] if self.chance(0.3) else [])
        for k in range(self.some(1, 3)):
            inner = p.but(context="D", grade=3)
            if p.context == "C":
                inner.arm = object()
            tokens += (["|"] if k else []) + self.condition(p, low) + ["->"] + self.body(vars, sure, inner, depth - 1)
        if sure or p.context == "D" and self.chance(0.4):
            tokens += ["else"] + self.body(vars, sure, p.but(context="D"), depth - 1)
        return tokens + (["end"] if self.chance(0.5) else [])

    def automaton(self, vars, sure, p, depth, low):
        names = [self.fresh("S") for _ in range(self.some(1, 3))]
        tokens = ["automaton"] + (["|"] if self.chance(0.7) else [])
        for k, name in enumerate(names):
            head, inside = self.body_parts(vars, sure, p, depth - 1)
            tokens += (["|"] if k else []) + [name, "->"] + head + self.moves(names, p, inside, low)
        return tokens + ["end"]

    def moves(self, names, p, inside, low):
        if self.chance(0.2):
            return ["done"]
        tokens = []
        for _ in range(self.some(1, 2)):
            word = self.rng.choice(["until", "unless"])
            for k in range(self.some(1, 2)):
                tokens.append("else" if k else word)
                where, rank = (inside, ANY) if word == "until" else (p, low)
                tokens += self.condition(where, rank)
                tokens += [self.rng.choice(["then", "then", "continue"]), self.rng.choice(names)]
        return tokens

    def condition(self, p, rank):
        if (p.context == "C") != self.leaks_by("kind"):
            return self.event(p)
        return ["("] + self.expr("bool", p.but(context="R", rank=rank, grade=3))[0] + [")"]

    def event(self, p):
        tokens = []
        for k in range(2 if self.chance(0.15) else 1):
            tokens += ["|"] if k else []
            tokens += ["up", "("] + self.expr("float", p.but(context="A", rank=ANY, grade=1))[0] + [")"]
        return tokens

    def joined(self, eqs):
        return [t for eq in eqs for t in ["and"] + eq][1:]

    # declarations

    def params(self, kind):
        made = []
        for _ in range(self.some(0, 3)):
            type = self.rng.choice(TYPES)
            grade = self.rng.choice([0, 0, 1]) if kind == "hybrid" and type == "float" else 0
            made.append(Var(self.fresh("p"), type, -1, "param", grade))
        return made

    def constant(self):
        name, type = self.fresh("c"), self.rng.choice(TYPES)
        value = self.expr(type, Place("A", []), 1)[0]
        self.constants.append((name, type))
        return ["let", name, "="] + value

    def declaration(self, kind, name):
        context = CONTEXTS[kind]
        self.cost = 0
        params = self.params(kind)
        linear = kind == "function" and self.chance(0.5)
        for v in params:
            if linear and v.type == "float":
                v.grade = 1
            if name == "main":
                v.grade = 0
        p = Place(context, params, grade=3 if context == "D" else 2)
        most = 12 if self.large else 3 if self.tiny else 6
        vars = self.new_vars(self.some(1 if context != "A" else 0, most), context, 0, 100, "top")
        for v in vars:
            if linear:
                v.grade = 1 if v.type == "float" else 0
        several, d = self.tuple_vars(p, 0, 100, "top")
        if name == "main" and not vars and not several:
            vars = self.new_vars(1, context, 0, 100, "top")
        p.vars = params + vars + several
        if context == "A":
            p.grade = 1 if linear else 3
        results, tokens = self.result(vars + several, p, name, linear)
        eqs = self.function_list(vars, p) if context == "A" else self.own_list(vars, [], p, self.deep - 1)
        if d:
            names = ["("] + [t for v in several for t in (",", v.name)][1:] + [")"]
            eqs.insert(
                self.some(0, len(eqs)), names + ["=", d.name] + self.arguments(d, p.but(rank=several[0].rank), 2)
            )
        head = ["="] + tokens
        if eqs:
            head += ["where"] + (["rec"] if self.chance(0.8) else []) + self.joined(eqs)
        used = set(head)
        head = ["let"] + ([kind] if kind != "function" else []) + [name] + self.parameters(params, used) + head
        cost = self.cost + len(params) + len(vars) + len(several)
        self.decls.append(Decl(kind, name, [(v.type, v.grade) for v in params], results, cost, linear))
        return head

    def function_list(self, vars, p):
        eqs = []
        for v in vars:
            q = p.but(rank=v.rank)
            if p.grade < 3:
                q.grade = v.grade
            eqs.append([v.name, "="] + self.expr(v.type, q)[0])
        self.rng.shuffle(eqs)
        return eqs

    def parameters(self, params, used):
        tokens = ["("]
        for k, v in enumerate(params):
            typed = self.chance(0.75 if v.name in used else 0.98)
            tokens += ([","] if k else []) + [v.name] + ([":", v.type] if typed else [])
        return tokens + [")"]

    def result(self, vars, p, name, linear):
        """The types and grades of the results, and their tokens."""
        vars = [v for v in vars if not v.late]
        if vars and (name == "main" or self.chance(0.6)):
            count = self.some(1, min(3, len(vars)))
            taken = self.rng.sample(vars, count)
            tokens = [t for v in taken for t in (",", v.name)][1:]
            return [(v.type, v.grade) for v in taken], ["("] + tokens + [")"] if count > 1 else tokens
        type, grade = self.rng.choice(TYPES), self.rng.choice([0, 1])
        q = p.but(grade=grade if p.context == "C" else p.grade)
        return [(type, grade if type == "float" else 0)], self.expr(type, q)[0]

    def tokens(self):
        tokens = []
        count = self.some(4, 14) if self.large else self.some(0, 1) if self.tiny else self.some(0, 6)
        for _ in range(count):
            kind = self.rng.choice(["constant", "function", "node", "node", "hybrid", "hybrid", "hybrid"])
            tokens += self.constant() if kind == "constant" else self.declaration(kind, self.fresh("f"))
        return tokens + self.declaration("hybrid", "main")


# text

NO_SPACE_AFTER, NO_SPACE_BEFORE = {"("}, {")", ",", "("}
BREAK_BEFORE = {"let": 0.95, "and": 0.7, "|": 0.5, "where": 0.3, "automaton": 0.2, "until": 0.2, "then": 0.05}
COMMENTS = ["(* c *)", "(* ä (* in *) ** *)", "(*)*)", "(**)"]


def gap(rng, before, after):
    if rng.random() < BREAK_BEFORE.get(after, 0.04):
        return rng.choice(["\n", "\n  ", "\n\t", "\n\n ", " \r\n"])
    if rng.random() < 0.01:
        return " " + rng.choice(COMMENTS) + " "
    if (before in NO_SPACE_AFTER or after in NO_SPACE_BEFORE) and rng.random() < 0.8:
        return ""
    return " "


def laid_out(tokens, rng):
    """The tokens as text; no gap is left out where two tokens could grow together."""
    parts = []
    for k, token in enumerate(tokens):
        if k:
            parts.append(gap(rng, tokens[k - 1], token))
        parts.append(token)
    text = "".join(parts) + rng.choice(["", "\n"])
    return text


def program(seed):
    maker = Maker(seed)
    return laid_out(maker.tokens(), maker.rng)


OTHER_TOKENS = (
    "let node hybrid where rec and der init reset present automaton do done until unless then continue else end every"
    " local in if last pre fby up not mod or true ( ) , : = < -> | || && + - * / +. -. *. /. 1 1.0 period . # $"
    " 9223372036854775808 1e-19 main truncate"
).split()


def damage(tokens, rng):
    k, form = rng.randrange(len(tokens)), rng.random()
    names = [t for t in tokens if t[-1].isdigit() and not t[0].isdigit()]
    same = [j for j, t in enumerate(tokens) if t in names]
    if form < 0.2:
        j = min(len(tokens) - 1, k + rng.choice([1, 1, 2, 5]))
        tokens[k], tokens[j] = tokens[j], tokens[k]
    elif form < 0.35:
        del tokens[k]
    elif form < 0.5:
        tokens.insert(k, tokens[k])
    elif form < 0.65 or not same:
        tokens[k] = rng.choice(OTHER_TOKENS)
    elif form < 0.7:
        tokens[rng.choice(same)] = "unknown"
    else:
        tokens[rng.choice(same)] = rng.choice(names)


def damaged(seed):
    maker = Maker(seed)
    tokens = maker.tokens()
    for _ in range(maker.rng.choice([1, 1, 2])):
        damage(tokens, maker.rng)
    return laid_out(tokens, maker.rng)


if __name__ == "__main__":
    make = damaged if sys.argv[2:] == ["damaged"] else program
    sys.stdout.write(make(int(sys.argv[1])))
