"""Reads the text of a program: characters to tokens, tokens to a tree.

`read(text)` gives the list of declarations, or raises `Refused` with the rule and the position.
Positions are pairs of line and column, both from 1; a column counts characters.
"""
from fractions import Fraction

WIDEST = 9223372036854775807
DEEPEST = 64
WORDS = set(
    "let node hybrid where rec and der init reset present automaton do done until unless then continue else end"
    " every local in if last pre fby up not mod or true false bool int float period".split()
)
SIGNS = ["||", "&&", "+.", "-.", "*.", "/.", "->", "<>", "<=", ">="] + list("(),:=<>|&+-*/")
OPEN_MARK, CLOSE_MARK = "(*", "*)"


class Refused(Exception):
    """A rule is broken at a position."""

    def __init__(self, rule, at):
        super().__init__(rule, at)
        self.rule, self.at = rule, at


class Node:
    """A part of the tree: its kind, the position that is named for it, and its fields."""

    def __init__(self, kind, at, **fields):
        self.kind, self.at = kind, at
        self.__dict__.update(fields)


class Token:
    def __init__(self, kind, text, at):
        self.kind, self.text, self.at = kind, text, at


def begins_name(c):
    return c.isidentifier()


def goes_on_name(c):
    return ("a" + c).isidentifier()


class Characters:
    """The text and where the reader stands in it."""

    def __init__(self, text):
        self.text, self.here, self.line, self.column = text, 0, 1, 1

    @property
    def at(self):
        return (self.line, self.column)

    def sees(self, mark):
        return self.text.startswith(mark, self.here)

    def peek(self, ahead=0):
        k = self.here + ahead
        return self.text[k] if k < len(self.text) else ""

    def move(self, count):
        for c in self.text[self.here : self.here + count]:
            if c == "\n":
                self.line, self.column = self.line + 1, 1
            else:
                self.column += 1
        self.here += count


def skip_comment(chars):
    at, depth = chars.at, 0
    while chars.here < len(chars.text):
        if chars.sees(OPEN_MARK):
            depth += 1
            chars.move(2)
        elif chars.sees(CLOSE_MARK):
            depth -= 1
            chars.move(2)
            if depth == 0:
                return
        else:
            chars.move(1)
    raise Refused("token", at)


def skip_blanks(chars):
    while chars.here < len(chars.text):
        if chars.peek() in " \t\r\n":
            chars.move(1)
        elif chars.sees(OPEN_MARK):
            skip_comment(chars)
        else:
            return


def digits_from(text, start):
    end = start
    while end < len(text) and text[end] in "0123456789":
        end += 1
    return end


def exponent_end(text, start):
    """Where an exponent that begins here ends, or the start where none does."""
    if start >= len(text) or text[start] not in "eE":
        return start
    first = start + 1
    if first < len(text) and text[first] in "+-":
        first += 1
    end = digits_from(text, first)
    return end if end > first else start


def number_end(text, start):
    """The end of the number that begins here, and whether it is a float."""
    end = digits_from(text, start)
    if end < len(text) and text[end] == ".":
        end = digits_from(text, end + 1)
        return exponent_end(text, end), True
    last = exponent_end(text, end)
    return last, last > end


def fits_float(text):
    text = text.lower()
    digits, _, exponent = text.partition("e")
    whole, _, part = digits.partition(".")
    number, power = int(whole + part), int(exponent or "0") - len(part)
    if number == 0:
        return True
    while number % 10 == 0:
        number, power = number // 10, power + 1
    if number >= 10**38 or not -38 <= power <= 18:
        return False
    value = Fraction(number) * Fraction(10) ** power
    return value.numerator <= WIDEST and value.denominator <= WIDEST


def read_number(chars):
    end, is_float = number_end(chars.text, chars.here)
    text = chars.text[chars.here : end]
    good = fits_float(text) if is_float else int(text) <= WIDEST
    if not good:
        raise Refused("literal", chars.at)
    token = Token("float" if is_float else "int", text, chars.at)
    chars.move(len(text))
    return token


def read_name(chars):
    end = chars.here + 1
    while end < len(chars.text) and goes_on_name(chars.text[end]):
        end += 1
    text = chars.text[chars.here : end]
    token = Token("sign" if text in WORDS else "name", text, chars.at)
    chars.move(len(text))
    return token


def read_sign(chars):
    for sign in SIGNS:
        if chars.sees(sign):
            token = Token("sign", sign, chars.at)
            chars.move(len(sign))
            return token
    raise Refused("token", chars.at)


def tokens_of(text):
    """The tokens of the text; the last one is of kind `end`."""
    chars, tokens = Characters(text), []
    while True:
        skip_blanks(chars)
        c = chars.peek()
        if not c:
            return tokens + [Token("end", "", chars.at)]
        if c in "0123456789":
            tokens.append(read_number(chars))
        elif begins_name(c):
            tokens.append(read_name(chars))
        else:
            tokens.append(read_sign(chars))


class Parser:
    """One token ahead decides, but for `( NAME ,` in a result and a `-` before a float."""

    def __init__(self, tokens):
        self.tokens, self.here, self.depth = tokens, 0, 0

    @property
    def token(self):
        return self.tokens[self.here]

    def ahead(self, count):
        return self.tokens[min(self.here + count, len(self.tokens) - 1)]

    def sees(self, *texts):
        return self.token.kind == "sign" and self.token.text in texts

    def fail(self):
        raise Refused("parse", self.token.at)

    def take(self, text):
        if not self.sees(text):
            self.fail()
        return self.step()

    def step(self):
        token = self.token
        self.here += 1
        return token

    def accept(self, text):
        if self.sees(text):
            self.step()
            return True
        return False

    def name(self):
        if self.token.kind != "name":
            self.fail()
        return self.step()

    def begin(self, *texts):
        """Takes a token that opens a counted construct."""
        if not self.sees(*texts):
            self.fail()
        self.depth += 1
        if self.depth > DEEPEST:
            raise Refused("deep", self.token.at)
        return self.step()

    def close(self):
        self.depth -= 1

    def program(self):
        decls = []
        while self.token.kind != "end":
            decls.append(self.declaration())
        return decls

    def declaration(self):
        self.take("let")
        kind = self.step().text if self.sees("node", "hybrid") else None
        name = self.name()
        if kind is None and self.accept("="):
            result = self.expression()
            return Node("constant", name.at, name=name.text, params=[], results=[result], eqs=[])
        params = self.parameters()
        self.take("=")
        results = self.results()
        eqs = []
        if self.accept("where"):
            self.accept("rec")
            eqs = self.equations()
        return Node(kind or "function", name.at, name=name.text, params=params, results=results, eqs=eqs)

    def parameters(self):
        self.begin("(")
        params = []
        if not self.sees(")"):
            params.append(self.parameter())
            while self.accept(","):
                params.append(self.parameter())
        self.take(")")
        self.close()
        return params

    def parameter(self):
        name, kind = self.name(), None
        if self.accept(":"):
            if not self.sees("bool", "int", "float"):
                self.fail()
            kind = self.step().text
        return Node("param", name.at, name=name.text, type=kind)

    def results(self):
        if self.sees("(") and self.ahead(1).kind == "name" and self.ahead(2).text == ",":
            return [Node("name", t.at, name=t.text) for t in self.left_side()]
        return [self.expression()]

    def left_side(self):
        self.begin("(")
        names = [self.name()]
        self.take(",")
        names.append(self.name())
        while self.accept(","):
            names.append(self.name())
        self.take(")")
        self.close()
        return names

    def equations(self):
        eqs = [self.equation()]
        while self.accept("and"):
            eqs.append(self.equation())
        return eqs

    def equation(self):
        if self.token.kind == "name":
            name = self.step()
            self.take("=")
            return Node("plain", name.at, names=[name], value=self.expression())
        if self.sees("("):
            return self.equation_of_several()
        forms = {"der": self.der, "init": self.init, "present": self.present, "automaton": self.automaton}
        if self.sees(*forms):
            return forms[self.token.text]()
        return self.reset()

    def equation_of_several(self):
        at = self.token.at
        names = self.left_side()
        self.take("=")
        called = self.name()
        if not self.sees("("):
            self.fail()
        return Node("plain", at, names=names, value=self.call(called))

    def der(self):
        at = self.step().at
        name = self.name()
        self.take("=")
        slope, start, arms = self.expression(), None, []
        if self.accept("init"):
            start = self.expression()
        if self.accept("reset"):
            arms.append(self.reset_arm())
            while self.accept("|"):
                arms.append(self.reset_arm())
        return Node("der", at, name=name, slope=slope, start=start, arms=arms)

    def reset_arm(self):
        event = self.event()
        self.take("->")
        return Node("reset_arm", event.at, event=event, value=self.expression())

    def init(self):
        at = self.step().at
        name = self.name()
        self.take("=")
        return Node("init", at, name=name, value=self.expression())

    def present(self):
        at = self.step().at
        self.accept("|")
        arms, other = [self.arm()], None
        while self.accept("|"):
            arms.append(self.arm())
        if self.accept("else"):
            other = self.body()
        self.accept("end")
        return Node("present", at, arms=arms, other=other)

    def arm(self):
        cond = self.condition()
        self.take("->")
        return Node("arm", cond.at, cond=cond, body=self.body())

    def locals(self):
        names = []
        if self.accept("local"):
            names.append(self.name())
            while self.accept(","):
                names.append(self.name())
            self.take("in")
        return names

    def body(self):
        at, names = self.token.at, self.locals()
        self.begin("do")
        eqs = [] if self.sees("done") else self.equations()
        self.take("done")
        self.close()
        return Node("body", at, locals=names, eqs=eqs)

    def automaton(self):
        at = self.step().at
        self.accept("|")
        states = [self.state()]
        while self.accept("|"):
            states.append(self.state())
        self.accept("end")
        return Node("automaton", at, states=states)

    def state(self):
        name = self.name()
        self.take("->")
        at, names = self.token.at, self.locals()
        self.begin("do")
        eqs = [] if self.sees("done", "until", "unless") else self.equations()
        moves = []
        if not self.accept("done"):
            if not self.sees("until", "unless"):
                self.fail()
            while self.sees("until", "unless"):
                self.add_moves(moves)
        self.close()
        return Node("state", name.at, name=name, body=Node("body", at, locals=names, eqs=eqs), moves=moves)

    def add_moves(self, moves):
        strong = self.step().text == "unless"
        moves.append(self.alternative(strong))
        while self.accept("else"):
            moves.append(self.alternative(strong))

    def alternative(self, strong):
        cond = self.condition()
        if not self.sees("then", "continue"):
            self.fail()
        self.step()
        return Node("move", cond.at, strong=strong, cond=cond, target=self.name())

    def condition(self):
        if not self.sees("("):
            return self.event()
        at = self.begin("(").at
        value = self.expression()
        self.take(")")
        self.close()
        return Node("test", at, value=value)

    def event(self):
        at = self.token.at
        ups = [self.up()]
        while self.accept("|"):
            ups.append(self.up())
        return Node("event", at, ups=ups)

    def up(self):
        at = self.take("up").at
        self.begin("(")
        value = self.expression()
        self.take(")")
        self.close()
        return Node("up", at, value=value)

    def reset(self):
        at = self.begin("reset").at
        eqs = self.equations()
        self.take("every")
        cond = self.condition()
        self.close()
        return Node("reset", at, eqs=eqs, cond=cond)

    def expression(self):
        if self.sees("if"):
            return self.choice()
        left = self.level(0)
        if not self.sees("->", "fby"):
            return left
        sign = self.begin("->", "fby")
        right = self.expression()
        self.close()
        return Node("flow", sign.at, sign=sign.text, parts=[left, right])

    def choice(self):
        at = self.begin("if").at
        cond = self.expression()
        self.take("then")
        first = self.expression()
        self.take("else")
        second = self.expression()
        self.close()
        return Node("if", at, parts=[cond, first, second])

    LEVELS = [
        ("||", "or"),
        ("&&", "&"),
        ("=", "<>", "<", "<=", ">", ">="),
        ("+", "-", "+.", "-."),
        ("*", "/", "mod", "*.", "/."),
    ]

    def level(self, k):
        if k == len(self.LEVELS):
            return self.prefix()
        left = self.level(k + 1)
        while self.sees(*self.LEVELS[k]):
            sign = self.step()
            right = self.level(k + 1)
            left = Node("op", sign.at, sign=sign.text, parts=[left, right])
            if k == 2:
                break
        return left

    def prefix(self):
        if self.sees("-") and self.ahead(1).kind == "float":
            at = self.step().at
            return Node("literal", at, type="float", text="-" + self.step().text)
        if not self.sees("-", "-.", "not", "pre"):
            return self.atom()
        sign = self.begin("-", "-.", "not", "pre")
        part = self.prefix()
        self.close()
        if sign.text == "pre":
            return Node("pre", sign.at, parts=[part])
        return Node("op", sign.at, sign="prefix " + sign.text, parts=[part])

    def atom(self):
        token = self.token
        if token.kind in ("int", "float"):
            self.step()
            return Node("literal", token.at, type=token.kind, text=token.text)
        if self.sees("true", "false"):
            self.step()
            return Node("literal", token.at, type="bool", text=token.text)
        if token.kind == "name":
            self.step()
            return self.call(token) if self.sees("(") else Node("name", token.at, name=token.text)
        if self.accept("last"):
            name = self.name()
            return Node("last", token.at, name=name.text, name_at=name.at)
        self.begin("(")
        inner = self.expression()
        self.take(")")
        self.close()
        return inner

    def call(self, called):
        self.begin("(")
        args = []
        if not self.sees(")"):
            args.append(self.expression())
            while self.accept(","):
                args.append(self.expression())
        end = self.take(")").at
        self.close()
        return Node("call", called.at, name=called.text, parts=args, end=end)


def read(text):
    """The declarations of the text, or `Refused`."""
    return Parser(tokens_of(text)).program()
