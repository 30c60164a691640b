//! Reads programs and values that are known to be right: enough for measuring, with no refusals.

use crate::interp::{Expr, Fold, Sign, Val, Word};

pub struct Parser<'a> {
    text: &'a [u8],
    at: usize,
    scope: Vec<String>,
}

impl<'a> Parser<'a> {
    pub fn new(text: &'a str) -> Parser<'a> {
        Parser {
            text: text.as_bytes(),
            at: 0,
            scope: Vec::new(),
        }
    }

    fn peek(&mut self) -> u8 {
        while self.at < self.text.len() && (self.text[self.at] == b' ' || self.text[self.at] == b'\n') {
            self.at += 1;
        }
        *self.text.get(self.at).unwrap_or(&0)
    }

    fn take(&mut self, sign: &str) -> bool {
        self.peek();
        let found = self.text[self.at..].starts_with(sign.as_bytes());
        if found {
            self.at += sign.len();
        }
        found
    }

    fn want(&mut self, sign: &str) {
        assert!(self.take(sign), "{sign} is wanted at {}", self.at);
    }

    fn word(&mut self) -> String {
        let start = {
            self.peek();
            self.at
        };
        while self.at < self.text.len() && (self.text[self.at].is_ascii_alphanumeric() || self.text[self.at] == b'_') {
            self.at += 1;
        }
        String::from_utf8_lossy(&self.text[start..self.at]).into_owned()
    }

    fn next_word(&mut self) -> String {
        let at = self.at;
        let w = self.word();
        self.at = at;
        w
    }

    fn skip_type(&mut self) {
        match self.peek() {
            b'(' => {
                self.want("(");
                self.skip_type();
                self.want(",");
                self.skip_type();
                self.want(")");
            }
            b'[' => {
                self.want("[");
                self.skip_type();
                self.want("]");
            }
            _ => {
                self.word();
            }
        }
    }

    pub fn program(&mut self) -> Expr {
        self.word();
        self.want("(");
        let name = self.word();
        self.want(":");
        self.skip_type();
        self.want(")");
        self.want(":");
        self.skip_type();
        self.want("=");
        self.scope.push(name);
        self.expr()
    }

    fn expr(&mut self) -> Expr {
        match self.next_word().as_str() {
            "let" => {
                self.word();
                let name = self.word();
                self.want("=");
                let e = self.expr();
                self.word();
                self.scope.push(name);
                let b = self.expr();
                self.scope.pop();
                Expr::Let(Box::new(e), Box::new(b))
            }
            "if" => {
                self.word();
                let c = self.expr();
                self.word();
                let a = self.expr();
                self.word();
                let b = self.expr();
                let mut frees = Vec::new();
                free(&a, 0, &mut frees);
                free(&b, 0, &mut frees);
                Expr::If(Box::new(c), frees, Box::new(a), Box::new(b))
            }
            _ => self.test(),
        }
    }

    fn test(&mut self) -> Expr {
        let a = self.chain(0);
        let sign = match self.peek() {
            b'=' if self.text.get(self.at + 1) == Some(&b'=') => Sign::Same,
            b'<' => Sign::Less,
            _ => return a,
        };
        self.want(if sign == Sign::Same { "==" } else { "<" });
        Expr::Infix(sign, Box::new(a), Box::new(self.chain(0)))
    }

    fn chain(&mut self, rank: usize) -> Expr {
        if rank == 2 {
            return self.post();
        }
        let mut a = self.chain(rank + 1);
        loop {
            let sign = match (rank, self.peek()) {
                (0, b'+') => Sign::Add,
                (0, b'-') => Sign::Sub,
                (1, b'*') => Sign::Mul,
                (1, b'/') => Sign::Div,
                (1, b'%') => Sign::Rem,
                _ => return a,
            };
            self.at += 1;
            a = Expr::Infix(sign, Box::new(a), Box::new(self.chain(rank + 1)));
        }
    }

    fn post(&mut self) -> Expr {
        let mut a = self.atom();
        while self.take("[") {
            let i = self.expr();
            self.want("]");
            a = Expr::Index(Box::new(a), Box::new(i));
        }
        a
    }

    fn operand(&mut self) -> Box<Expr> {
        self.want("(");
        let e = self.expr();
        self.want(")");
        Box::new(e)
    }

    fn fold(&mut self) -> Fold {
        match self.word().as_str() {
            "sum" => Fold::Sum,
            "max" => Fold::Max,
            "or" => Fold::Or,
            "lin" => Fold::Lin,
            _ => Fold::House,
        }
    }

    fn atom(&mut self) -> Expr {
        if self.take("(") {
            let a = self.expr();
            let e = if self.take(",") {
                Expr::Pair(Box::new(a), Box::new(self.expr()))
            } else {
                Expr::Group(Box::new(a))
            };
            self.want(")");
            return e;
        }
        if self.take("[") {
            let mut items = vec![self.expr()];
            while self.take(",") {
                items.push(self.expr());
            }
            self.want("]");
            return Expr::Bracket(items);
        }
        if self.take("{") {
            return self.each();
        }
        if self.peek().is_ascii_digit() {
            return Expr::Leaf(Val::Int(self.word().parse().unwrap()));
        }
        let w = self.word();
        match w.as_str() {
            "true" => Expr::Leaf(Val::Bool(true)),
            "false" => Expr::Leaf(Val::Bool(false)),
            "fst" => Expr::Apply(Word::Fst, self.operand()),
            "snd" => Expr::Apply(Word::Snd, self.operand()),
            "len" => Expr::Apply(Word::Len, self.operand()),
            "range" => Expr::Apply(Word::Range, self.operand()),
            "flat" => Expr::Apply(Word::Flat, self.operand()),
            "scan" => {
                let o = self.fold();
                Expr::Scan(o, self.operand())
            }
            "reduce" => {
                let o = self.fold();
                Expr::Reduce(o, self.operand())
            }
            "empty" => {
                self.want("(");
                self.skip_type();
                self.want(")");
                Expr::Hollow
            }
            "part" => {
                self.want("(");
                let s = self.expr();
                self.want(",");
                let c = self.expr();
                self.want(")");
                Expr::Part(Box::new(s), Box::new(c))
            }
            _ => Expr::Var(self.scope.iter().rev().position(|n| *n == w).unwrap()),
        }
    }

    /// The body comes first in the text, so it is read twice: once to find the name, once with it in scope.
    fn each(&mut self) -> Expr {
        let body = self.at;
        self.skip_to_colon();
        let name = self.word();
        self.word();
        let s = self.expr();
        self.scope.push(name);
        let f = if self.take("|") { Some(self.expr()) } else { None };
        let after = self.at;
        self.at = body;
        let b = self.expr();
        self.scope.pop();
        self.at = after;
        self.want("}");
        let mut frees = Vec::new();
        if let Some(f) = &f {
            free(f, 1, &mut frees);
        }
        free(&b, 1, &mut frees);
        Expr::Each(Box::new(s), frees, f.map(Box::new), Box::new(b))
    }

    fn skip_to_colon(&mut self) {
        let mut depth = 0;
        while depth > 0 || self.text[self.at] != b':' {
            match self.text[self.at] {
                b'{' => depth += 1,
                b'}' => depth -= 1,
                _ => {}
            }
            self.at += 1;
        }
        self.want(":");
    }

    pub fn value(&mut self) -> Val {
        if self.take("(") {
            let a = self.value();
            self.want(",");
            let b = self.value();
            self.want(")");
            return Val::pair(a, b);
        }
        if self.take("[") {
            let mut items = Vec::new();
            while !self.take("]") {
                self.take(",");
                items.push(self.value());
            }
            return Val::list(items);
        }
        if self.take("-") {
            return Val::Int((-self.word().parse::<i64>().unwrap()) as i32);
        }
        match self.word().as_str() {
            "true" => Val::Bool(true),
            "false" => Val::Bool(false),
            k => Val::Int(k.parse().unwrap()),
        }
    }
}

/// Adds the variables of an expression that stand outside of `depth` bindings, each once.
fn free(e: &Expr, depth: usize, out: &mut Vec<usize>) {
    match e {
        Expr::Leaf(_) | Expr::Hollow => {}
        Expr::Var(k) => {
            if *k >= depth && !out.contains(&(k - depth)) {
                out.push(k - depth);
            }
        }
        Expr::Group(a) | Expr::Apply(_, a) | Expr::Scan(_, a) | Expr::Reduce(_, a) => free(a, depth, out),
        Expr::Let(a, b) => {
            free(a, depth, out);
            free(b, depth + 1, out);
        }
        Expr::If(c, _, a, b) => {
            free(c, depth, out);
            free(a, depth, out);
            free(b, depth, out);
        }
        Expr::Each(s, _, f, b) => {
            free(s, depth, out);
            if let Some(f) = f {
                free(f, depth + 1, out);
            }
            free(b, depth + 1, out);
        }
        Expr::Infix(_, a, b) | Expr::Pair(a, b) | Expr::Index(a, b) | Expr::Part(a, b) => {
            free(a, depth, out);
            free(b, depth, out);
        }
        Expr::Bracket(es) => es.iter().for_each(|e| free(e, depth, out)),
    }
}
