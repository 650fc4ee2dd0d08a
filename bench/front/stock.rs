// What stock Rust takes for the same work: a lexer and a recursive-descent parser of the language's grammar, from the bytes
// of a file to its tree. It prints `ok`, or the place where reading stopped.
use std::collections::HashMap;
use std::{env, fs, process};

#[derive(Clone, Copy, PartialEq, Debug)]
enum Kind {
    Name(u32),
    Int(i64),
    Float(i128, i32),
    Word(&'static str),
    Sign(&'static str),
}

#[derive(Clone, Copy)]
struct Token {
    kind: Kind,
    start: u32,
    end: u32,
    line: u32,
    column: u32,
}

const WORDS: [&str; 36] = [
    "let", "node", "hybrid", "where", "rec", "and", "der", "init", "reset", "present", "automaton", "do", "done",
    "until", "unless", "then", "continue", "else", "end", "every", "local", "in", "if", "last", "pre", "fby", "up",
    "not", "mod", "or", "true", "false", "bool", "int", "float", "period",
];
type Fault = (u32, u32);

struct Lexer<'a> {
    text: &'a str,
    at: usize,
    line: u32,
    column: u32,
    names: HashMap<String, u32>,
    words: HashMap<&'static str, &'static str>,
}

impl<'a> Lexer<'a> {
    fn peek(&self, ahead: usize) -> u8 {
        *self.text.as_bytes().get(self.at + ahead).unwrap_or(&0)
    }

    fn step(&mut self) {
        let c = self.text[self.at..].chars().next().unwrap();
        self.at += c.len_utf8();
        if c == '\n' {
            self.line += 1;
            self.column = 1;
        } else {
            self.column += 1;
        }
    }

    fn comment(&mut self) -> Result<(), Fault> {
        let opening = (self.line, self.column);
        let mut depth = 0;
        loop {
            if self.at >= self.text.len() {
                return Err(opening);
            }
            match (self.peek(0), self.peek(1)) {
                (b'(', b'*') => depth += 1,
                (b'*', b')') => depth -= 1,
                _ => {
                    self.step();
                    continue;
                }
            }
            self.step();
            self.step();
            if depth == 0 {
                return Ok(());
            }
        }
    }

    fn gap(&mut self) -> Result<(), Fault> {
        while self.at < self.text.len() {
            match self.peek(0) {
                b' ' | b'\t' | b'\r' | b'\n' => self.step(),
                b'(' if self.peek(1) == b'*' => self.comment()?,
                _ => break,
            }
        }
        Ok(())
    }

    fn digits(&mut self) {
        while self.peek(0).is_ascii_digit() {
            self.step();
        }
    }

    fn number(&mut self) -> Result<Kind, Fault> {
        let (start, place) = (self.at, (self.line, self.column));
        self.digits();
        let whole_end = self.at;
        let mut is_float = false;
        let mut after = 0i32;
        if self.peek(0) == b'.' {
            is_float = true;
            self.step();
            let from = self.at;
            self.digits();
            after = (self.at - from) as i32;
        }
        let mantissa_end = self.at;
        let mut exponent = 0i32;
        if matches!(self.peek(0), b'e' | b'E') {
            let signed = matches!(self.peek(1), b'+' | b'-') as usize;
            if self.peek(1 + signed).is_ascii_digit() {
                is_float = true;
                for _ in 0..1 + signed {
                    self.step();
                }
                let from = self.at;
                self.digits();
                let size: i32 = self.text[from..self.at].parse().unwrap_or(99999);
                exponent = if signed == 1 && self.text.as_bytes()[from - 1] == b'-' { -size } else { size };
            }
        }
        if !is_float {
            return self.text[start..whole_end].parse().map(Kind::Int).map_err(|_| place);
        }
        let mut value = 0i128;
        for b in self.text[start..mantissa_end].bytes().filter(u8::is_ascii_digit) {
            value = value.checked_mul(10).and_then(|v| v.checked_add((b - b'0') as i128)).ok_or(place)?;
        }
        Ok(Kind::Float(value, exponent - after))
    }

    fn name(&mut self) -> Kind {
        let start = self.at;
        while self.text[self.at..].chars().next().is_some_and(|c| c == '_' || c.is_alphanumeric()) {
            self.step();
        }
        let text = &self.text[start..self.at];
        if let Some(word) = self.words.get(text) {
            return Kind::Word(word);
        }
        let next = self.names.len() as u32;
        Kind::Name(*self.names.entry(text.to_string()).or_insert(next))
    }

    fn sign(&mut self) -> Result<Kind, Fault> {
        let sign = match (self.peek(0), self.peek(1)) {
            (b'<', b'>') => "<>",
            (b'<', b'=') => "<=",
            (b'<', _) => "<",
            (b'>', b'=') => ">=",
            (b'>', _) => ">",
            (b'-', b'>') => "->",
            (b'-', b'.') => "-.",
            (b'-', _) => "-",
            (b'+', b'.') => "+.",
            (b'+', _) => "+",
            (b'*', b'.') => "*.",
            (b'*', _) => "*",
            (b'/', b'.') => "/.",
            (b'/', _) => "/",
            (b'|', b'|') => "||",
            (b'|', _) => "|",
            (b'&', b'&') => "&&",
            (b'&', _) => "&",
            (b'(', _) => "(",
            (b')', _) => ")",
            (b',', _) => ",",
            (b':', _) => ":",
            (b'=', _) => "=",
            _ => return Err((self.line, self.column)),
        };
        self.at += sign.len();
        self.column += sign.len() as u32;
        Ok(Kind::Sign(sign))
    }

    fn lex(&mut self) -> Result<Vec<Token>, Fault> {
        let mut tokens = Vec::new();
        loop {
            self.gap()?;
            if self.at >= self.text.len() {
                return Ok(tokens);
            }
            let (start, line, column) = (self.at as u32, self.line, self.column);
            let c = self.text[self.at..].chars().next().unwrap();
            let kind = if c.is_ascii_digit() {
                self.number()?
            } else if c == '_' || c.is_alphabetic() {
                self.name()
            } else {
                self.sign()?
            };
            tokens.push(Token { kind, start, end: self.at as u32, line, column });
        }
    }
}

type At = (u32, u32);

#[allow(dead_code)]
enum Expr {
    Lit(Kind, At),
    Var(u32, At),
    Last(u32, At),
    Call(u32, At, Vec<Expr>),
    Prefix(&'static str, At, Box<Expr>),
    Chain(Box<Expr>, Vec<(&'static str, At, Expr)>),
    Flow(&'static str, At, Box<Expr>, Box<Expr>),
    If(At, Box<Expr>, Box<Expr>, Box<Expr>),
}

#[allow(dead_code)]
enum Cond {
    Event(Vec<(At, Expr)>),
    Test(At, Expr),
}

#[allow(dead_code)]
struct Body {
    locals: Vec<(u32, At)>,
    eqs: Vec<Eqn>,
}

#[allow(dead_code)]
struct State {
    name: u32,
    body: Body,
    moves: Vec<(bool, bool, At, Cond, u32)>,
}

#[allow(dead_code)]
enum Eqn {
    Plain(Vec<(u32, At)>, Expr),
    Der(At, u32, Expr, Option<Expr>, Vec<(Vec<(At, Expr)>, Expr)>),
    Start(At, u32, Expr),
    Present(At, Vec<(Cond, Body)>, Option<Body>),
    Automaton(At, Vec<State>),
    Reset(At, Vec<Eqn>, Cond),
}

#[allow(dead_code)]
struct Decl {
    name: u32,
    params: Vec<(u32, Option<&'static str>)>,
    results: Vec<Expr>,
    eqs: Vec<Eqn>,
}

struct Parser<'a> {
    tokens: &'a [Token],
    at: usize,
    depth: u32,
}

const LEVELS: [&[&str]; 5] = [
    &["||", "or"],
    &["&&", "&"],
    &["=", "<>", "<", "<=", ">", ">="],
    &["+", "-", "+.", "-."],
    &["*", "/", "mod", "*.", "/."],
];

impl<'a> Parser<'a> {
    fn kind(&self, ahead: usize) -> Option<Kind> {
        self.tokens.get(self.at + ahead).map(|t| t.kind)
    }

    fn place(&self) -> At {
        match self.tokens.get(self.at).or(self.tokens.last()) {
            Some(t) => (t.line, t.column),
            None => (1, 1),
        }
    }

    fn fault<T>(&self) -> Result<T, Fault> {
        Err(self.place())
    }

    fn is(&self, text: &str) -> bool {
        matches!(self.kind(0), Some(Kind::Word(w)) | Some(Kind::Sign(w)) if w == text)
    }

    fn take(&mut self, text: &str) -> bool {
        let found = self.is(text);
        self.at += found as usize;
        found
    }

    fn want(&mut self, text: &str) -> Result<(), Fault> {
        if self.take(text) { Ok(()) } else { self.fault() }
    }

    fn open(&mut self) -> Result<(), Fault> {
        self.depth += 1;
        if self.depth > 64 { self.fault() } else { Ok(()) }
    }

    fn name(&mut self) -> Result<(u32, At), Fault> {
        let at = self.place();
        match self.kind(0) {
            Some(Kind::Name(id)) => {
                self.at += 1;
                Ok((id, at))
            }
            _ => self.fault(),
        }
    }

    fn names(&mut self) -> Result<Vec<(u32, At)>, Fault> {
        let mut names = vec![self.name()?];
        while self.take(",") {
            names.push(self.name()?);
        }
        Ok(names)
    }

    fn args(&mut self) -> Result<Vec<Expr>, Fault> {
        let mut args = Vec::new();
        self.open()?;
        self.want("(")?;
        if !self.is(")") {
            args.push(self.expr()?);
            while self.take(",") {
                args.push(self.expr()?);
            }
        }
        self.want(")")?;
        self.depth -= 1;
        Ok(args)
    }

    fn atom(&mut self) -> Result<Expr, Fault> {
        let at = self.place();
        let Some(kind) = self.kind(0) else { return self.fault() };
        match kind {
            Kind::Int(_) | Kind::Float(..) | Kind::Word("true") | Kind::Word("false") => {
                self.at += 1;
                Ok(Expr::Lit(kind, at))
            }
            Kind::Name(id) => {
                self.at += 1;
                if self.is("(") {
                    return Ok(Expr::Call(id, at, self.args()?));
                }
                Ok(Expr::Var(id, at))
            }
            Kind::Word("last") => {
                self.at += 1;
                Ok(Expr::Last(self.name()?.0, at))
            }
            Kind::Sign("(") => {
                self.open()?;
                self.at += 1;
                let inner = self.expr()?;
                self.want(")")?;
                self.depth -= 1;
                Ok(inner)
            }
            _ => self.fault(),
        }
    }

    fn prefix(&mut self) -> Result<Expr, Fault> {
        let at = self.place();
        if let (Some(Kind::Sign("-")), Some(Kind::Float(m, e))) = (self.kind(0), self.kind(1)) {
            self.at += 2;
            return Ok(Expr::Lit(Kind::Float(-m, e), at));
        }
        for op in ["-", "-.", "not", "pre"] {
            if self.is(op) {
                self.open()?;
                self.at += 1;
                let inner = self.prefix()?;
                self.depth -= 1;
                return Ok(Expr::Prefix(op, at, Box::new(inner)));
            }
        }
        self.atom()
    }

    fn operator(&self, level: usize) -> Option<&'static str> {
        match self.kind(0) {
            Some(Kind::Word(w)) | Some(Kind::Sign(w)) => LEVELS[level].iter().find(|o| **o == w).copied(),
            _ => None,
        }
    }

    fn level(&mut self, level: usize) -> Result<Expr, Fault> {
        if level == LEVELS.len() {
            return self.prefix();
        }
        let first = self.level(level + 1)?;
        let mut rest = Vec::new();
        while let Some(op) = self.operator(level) {
            let at = self.place();
            self.at += 1;
            rest.push((op, at, self.level(level + 1)?));
            if level == 2 {
                break;
            }
        }
        Ok(if rest.is_empty() { first } else { Expr::Chain(Box::new(first), rest) })
    }

    fn expr(&mut self) -> Result<Expr, Fault> {
        let at = self.place();
        if self.is("if") {
            self.open()?;
            self.at += 1;
            let cond = self.expr()?;
            self.want("then")?;
            let yes = self.expr()?;
            self.want("else")?;
            let no = self.expr()?;
            self.depth -= 1;
            return Ok(Expr::If(at, Box::new(cond), Box::new(yes), Box::new(no)));
        }
        let left = self.level(0)?;
        for op in ["->", "fby"] {
            if self.is(op) {
                let at = self.place();
                self.open()?;
                self.at += 1;
                let right = self.expr()?;
                self.depth -= 1;
                return Ok(Expr::Flow(op, at, Box::new(left), Box::new(right)));
            }
        }
        Ok(left)
    }

    fn up(&mut self) -> Result<(At, Expr), Fault> {
        let at = self.place();
        self.want("up")?;
        self.open()?;
        self.want("(")?;
        let arg = self.expr()?;
        self.want(")")?;
        self.depth -= 1;
        Ok((at, arg))
    }

    fn event(&mut self) -> Result<Vec<(At, Expr)>, Fault> {
        let mut ups = vec![self.up()?];
        while self.take("|") {
            ups.push(self.up()?);
        }
        Ok(ups)
    }

    fn cond(&mut self) -> Result<Cond, Fault> {
        if self.is("up") {
            return Ok(Cond::Event(self.event()?));
        }
        let at = self.place();
        self.open()?;
        self.want("(")?;
        let arg = self.expr()?;
        self.want(")")?;
        self.depth -= 1;
        Ok(Cond::Test(at, arg))
    }

    fn locals(&mut self) -> Result<Vec<(u32, At)>, Fault> {
        if !self.take("local") {
            return Ok(Vec::new());
        }
        let names = self.names()?;
        self.want("in")?;
        Ok(names)
    }

    fn body(&mut self) -> Result<Body, Fault> {
        let locals = self.locals()?;
        self.open()?;
        self.want("do")?;
        let eqs = if self.is("done") { Vec::new() } else { self.eqs()? };
        self.want("done")?;
        self.depth -= 1;
        Ok(Body { locals, eqs })
    }

    fn state(&mut self) -> Result<State, Fault> {
        let name = self.name()?.0;
        self.want("->")?;
        let locals = self.locals()?;
        self.open()?;
        self.want("do")?;
        let is_end = self.is("done") || self.is("until") || self.is("unless");
        let eqs = if is_end { Vec::new() } else { self.eqs()? };
        let mut moves = Vec::new();
        if !self.take("done") {
            while self.is("until") || self.is("unless") {
                let strong = self.is("unless");
                loop {
                    let at = self.place();
                    self.at += 1;
                    let cond = self.cond()?;
                    let reset = self.is("then");
                    if !reset && !self.is("continue") {
                        return self.fault();
                    }
                    self.at += 1;
                    moves.push((strong, reset, at, cond, self.name()?.0));
                    if !self.is("else") {
                        break;
                    }
                }
            }
            if moves.is_empty() {
                return self.fault();
            }
        }
        self.depth -= 1;
        Ok(State { name, body: Body { locals, eqs }, moves })
    }

    fn eqn(&mut self) -> Result<Eqn, Fault> {
        let at = self.place();
        if self.take("der") {
            let name = self.name()?.0;
            self.want("=")?;
            let slope = self.expr()?;
            let start = if self.take("init") { Some(self.expr()?) } else { None };
            let mut resets = Vec::new();
            if self.take("reset") {
                loop {
                    let event = self.event()?;
                    self.want("->")?;
                    resets.push((event, self.expr()?));
                    if !self.take("|") {
                        break;
                    }
                }
            }
            return Ok(Eqn::Der(at, name, slope, start, resets));
        }
        if self.take("init") {
            let name = self.name()?.0;
            self.want("=")?;
            return Ok(Eqn::Start(at, name, self.expr()?));
        }
        if self.take("present") {
            self.take("|");
            let mut arms = Vec::new();
            loop {
                let cond = self.cond()?;
                self.want("->")?;
                arms.push((cond, self.body()?));
                if !self.take("|") {
                    break;
                }
            }
            let other = if self.take("else") { Some(self.body()?) } else { None };
            self.take("end");
            return Ok(Eqn::Present(at, arms, other));
        }
        if self.take("automaton") {
            self.take("|");
            let mut states = vec![self.state()?];
            while self.take("|") {
                states.push(self.state()?);
            }
            self.take("end");
            return Ok(Eqn::Automaton(at, states));
        }
        if self.is("reset") {
            self.open()?;
            self.at += 1;
            let eqs = self.eqs()?;
            self.want("every")?;
            let cond = self.cond()?;
            self.depth -= 1;
            return Ok(Eqn::Reset(at, eqs, cond));
        }
        if self.take("(") {
            let left = self.names()?;
            self.want(")")?;
            self.want("=")?;
            let (name, at) = self.name()?;
            let args = self.args()?;
            return if left.len() < 2 { self.fault() } else { Ok(Eqn::Plain(left, Expr::Call(name, at, args))) };
        }
        let left = vec![self.name()?];
        self.want("=")?;
        Ok(Eqn::Plain(left, self.expr()?))
    }

    fn eqs(&mut self) -> Result<Vec<Eqn>, Fault> {
        let mut eqs = vec![self.eqn()?];
        while self.take("and") {
            eqs.push(self.eqn()?);
        }
        Ok(eqs)
    }

    fn decl(&mut self) -> Result<Decl, Fault> {
        self.want("let")?;
        let is_node = self.take("node") || self.take("hybrid");
        let name = self.name()?.0;
        if !is_node && self.take("=") {
            return Ok(Decl { name, params: Vec::new(), results: vec![self.expr()?], eqs: Vec::new() });
        }
        self.want("(")?;
        let mut params = Vec::new();
        while !self.is(")") {
            let param = self.name()?.0;
            let mut ty = None;
            if self.take(":") {
                ty = ["bool", "int", "float"].into_iter().find(|t| self.is(t));
                if ty.is_none() {
                    return self.fault();
                }
                self.at += 1;
            }
            params.push((param, ty));
            if !self.is(")") {
                self.want(",")?;
            }
        }
        self.want(")")?;
        self.want("=")?;
        let is_list = matches!((self.kind(0), self.kind(1), self.kind(2)),
            (Some(Kind::Sign("(")), Some(Kind::Name(_)), Some(Kind::Sign(","))));
        let results = if is_list {
            self.at += 1;
            let names = self.names()?;
            self.want(")")?;
            names.into_iter().map(|(id, at)| Expr::Var(id, at)).collect()
        } else {
            vec![self.expr()?]
        };
        let mut eqs = Vec::new();
        if self.take("where") {
            self.take("rec");
            eqs = self.eqs()?;
        }
        Ok(Decl { name, params, results, eqs })
    }

    fn program(&mut self) -> Result<Vec<Decl>, Fault> {
        let mut decls = Vec::new();
        while self.at < self.tokens.len() {
            decls.push(self.decl()?);
        }
        Ok(decls)
    }
}

fn read(text: &str) -> Result<(), Fault> {
    let words = WORDS.into_iter().map(|w| (w, w)).collect();
    let mut lexer = Lexer { text, at: 0, line: 1, column: 1, names: HashMap::new(), words };
    let tokens = lexer.lex()?;
    let span: u64 = tokens.iter().map(|t| (t.end - t.start) as u64).sum();
    let mut parser = Parser { tokens: &tokens, at: 0, depth: 0 };
    let decls = parser.program()?;
    eprintln!("{} tokens, {} bytes in them, {} declarations", tokens.len(), span, decls.len());
    Ok(())
}

fn main() {
    let path = env::args().nth(1).expect("a file");
    let bytes = fs::read(path).expect("it can be read");
    let text = std::str::from_utf8(&bytes).expect("UTF-8");
    match read(text) {
        Ok(()) => println!("ok"),
        Err((line, column)) => {
            println!("stopped {line}:{column}");
            process::exit(1)
        }
    }
}
