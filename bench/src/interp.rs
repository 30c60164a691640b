//! A plain tree-walking interpreter of the language, written by hand: what the direct run is measured beside.
//! It computes values and work, and stops at the first failure or where the work passes the budget.

use std::rc::Rc;

#[derive(Clone, Copy, PartialEq, Debug)]
pub enum Sign {
    Add,
    Sub,
    Mul,
    Div,
    Rem,
    Same,
    Less,
}

#[derive(Clone, Copy, PartialEq, Debug)]
pub enum Word {
    Fst,
    Snd,
    Len,
    Range,
    Flat,
}

#[derive(Clone, Copy, PartialEq, Debug)]
pub enum Fold {
    Sum,
    Max,
    Or,
    Lin,
    House,
}

/// A node; variables are counted from the innermost, and forks know their free variables.
pub enum Expr {
    Leaf(Val),
    Var(usize),
    Group(Box<Expr>),
    Let(Box<Expr>, Box<Expr>),
    If(Box<Expr>, Vec<usize>, Box<Expr>, Box<Expr>),
    Each(Box<Expr>, Vec<usize>, Option<Box<Expr>>, Box<Expr>),
    Infix(Sign, Box<Expr>, Box<Expr>),
    Apply(Word, Box<Expr>),
    Pair(Box<Expr>, Box<Expr>),
    Bracket(Vec<Expr>),
    Hollow,
    Index(Box<Expr>, Box<Expr>),
    Part(Box<Expr>, Box<Expr>),
    Scan(Fold, Box<Expr>),
    Reduce(Fold, Box<Expr>),
}

/// Lists and pairs are shared, and know their size.
#[derive(Clone, Debug)]
pub enum Val {
    Int(i32),
    Bool(bool),
    Pair(Rc<(usize, Val, Val)>),
    List(Rc<(usize, Vec<Val>)>),
}

impl Val {
    pub fn size(&self) -> usize {
        match self {
            Val::Int(_) | Val::Bool(_) => 1,
            Val::Pair(p) => p.0,
            Val::List(l) => l.0,
        }
    }

    pub fn pair(a: Val, b: Val) -> Val {
        Val::Pair(Rc::new((a.size() + b.size(), a, b)))
    }

    pub fn list(items: Vec<Val>) -> Val {
        Val::List(Rc::new((1 + items.iter().map(Val::size).sum::<usize>(), items)))
    }

    fn int(&self) -> i32 {
        match self {
            Val::Int(k) => *k,
            _ => unreachable!("no int"),
        }
    }

    fn truth(&self) -> bool {
        match self {
            Val::Bool(b) => *b,
            _ => unreachable!("no bool"),
        }
    }

    fn items(&self) -> &[Val] {
        match self {
            Val::List(l) => &l.1,
            _ => unreachable!("no list"),
        }
    }

    fn halves(&self) -> (&Val, &Val) {
        match self {
            Val::Pair(p) => (&p.1, &p.2),
            _ => unreachable!("no pair"),
        }
    }

    pub fn show(&self, out: &mut String) {
        match self {
            Val::Int(k) => out.push_str(&k.to_string()),
            Val::Bool(b) => out.push_str(if *b { "true" } else { "false" }),
            Val::Pair(p) => {
                out.push('(');
                p.1.show(out);
                out.push(',');
                p.2.show(out);
                out.push(')');
            }
            Val::List(l) => {
                out.push('[');
                for (i, v) in l.1.iter().enumerate() {
                    if i > 0 {
                        out.push(',');
                    }
                    v.show(out);
                }
                out.push(']');
            }
        }
    }
}

/// Why a run stops: the number of the refusal.
pub struct Stop(#[allow(dead_code)] pub u8);

pub struct Run {
    budget: u64,
    pub work: u64,
    env: Vec<Val>,
}

impl Run {
    pub fn new(budget: u64, input: Val) -> Run {
        Run {
            budget,
            work: 0,
            env: vec![input],
        }
    }

    fn charge(&mut self, n: usize) -> Result<(), Stop> {
        self.work += n as u64;
        if self.work > self.budget { Err(Stop(17)) } else { Ok(()) }
    }

    fn sizes(&self, frees: &[usize]) -> usize {
        frees.iter().map(|k| self.env[self.env.len() - 1 - k].size()).sum()
    }

    fn scoped(&mut self, v: Val, e: &Expr) -> Result<Val, Stop> {
        self.env.push(v);
        let r = self.eval(e);
        self.env.pop();
        r
    }

    pub fn eval(&mut self, e: &Expr) -> Result<Val, Stop> {
        match e {
            Expr::Leaf(v) => self.charge(1).map(|()| v.clone()),
            Expr::Var(k) => {
                self.charge(1)?;
                Ok(self.env[self.env.len() - 1 - k].clone())
            }
            Expr::Group(e) => {
                let v = self.eval(e)?;
                self.charge(1)?;
                Ok(v)
            }
            Expr::Let(e, b) => {
                let v = self.eval(e)?;
                let u = self.scoped(v, b)?;
                self.charge(1)?;
                Ok(u)
            }
            Expr::If(c, frees, a, b) => {
                let c = self.eval(c)?.truth();
                self.charge(1 + self.sizes(frees))?;
                let v = self.eval(if c { a } else { b })?;
                self.charge(1 + v.size())?;
                Ok(v)
            }
            Expr::Each(s, frees, f, b) => self.each(s, frees, f.as_deref(), b),
            Expr::Pair(a, b) => {
                let (a, b) = (self.eval(a)?, self.eval(b)?);
                self.node(&[a.size(), b.size()], Val::pair(a, b))
            }
            Expr::Bracket(es) => {
                let mut items = Vec::with_capacity(es.len());
                for e in es {
                    items.push(self.eval(e)?);
                }
                let sizes: Vec<usize> = items.iter().map(Val::size).collect();
                self.node(&sizes, Val::list(items))
            }
            Expr::Hollow => self.node(&[], Val::list(Vec::new())),
            Expr::Infix(o, a, b) => {
                let (a, b) = (self.eval(a)?.int(), self.eval(b)?.int());
                let v = infix(*o, a, b)?;
                self.node(&[1, 1], v)
            }
            Expr::Apply(o, e) => {
                let v = self.eval(e)?;
                self.node(&[v.size()], apply(*o, &v))
            }
            Expr::Index(s, i) => {
                let (s, i) = (self.eval(s)?, self.eval(i)?.int());
                let v = usize::try_from(i).ok().and_then(|i| s.items().get(i)).ok_or(Stop(19))?.clone();
                self.node(&[s.size(), 1], v)
            }
            Expr::Part(s, c) => {
                let (s, c) = (self.eval(s)?, self.eval(c)?);
                let v = part(s.items(), c.items())?;
                self.node(&[s.size(), c.size()], v)
            }
            Expr::Scan(o, e) => {
                let s = self.eval(e)?;
                let mut acc = unit(*o);
                let mut items = Vec::with_capacity(s.items().len());
                for x in s.items() {
                    let next = join(*o, &acc, x);
                    items.push(std::mem::replace(&mut acc, next));
                }
                self.node(&[s.size()], Val::list(items))
            }
            Expr::Reduce(o, e) => {
                let s = self.eval(e)?;
                let v = s.items().iter().fold(unit(*o), |acc, x| join(*o, &acc, x));
                self.node(&[s.size()], v)
            }
        }
    }

    fn node(&mut self, sizes: &[usize], v: Val) -> Result<Val, Stop> {
        self.charge(1 + sizes.iter().sum::<usize>() + v.size())?;
        Ok(v)
    }

    fn each(&mut self, s: &Expr, frees: &[usize], f: Option<&Expr>, b: &Expr) -> Result<Val, Stop> {
        let s = self.eval(s)?;
        let xs = s.items();
        self.charge(1 + s.size() + (xs.len() + 1) * self.sizes(frees))?;
        let mut items = Vec::new();
        for x in xs {
            self.env.push(x.clone());
            let r = self.element(f, b);
            self.env.pop();
            items.extend(r?);
        }
        let v = Val::list(items);
        self.charge(1 + v.size())?;
        Ok(v)
    }

    fn element(&mut self, f: Option<&Expr>, b: &Expr) -> Result<Option<Val>, Stop> {
        if let Some(f) = f
            && !self.eval(f)?.truth()
        {
            return Ok(None);
        }
        self.eval(b).map(Some)
    }
}

fn infix(o: Sign, a: i32, b: i32) -> Result<Val, Stop> {
    Ok(match o {
        Sign::Add => Val::Int(a.wrapping_add(b)),
        Sign::Sub => Val::Int(a.wrapping_sub(b)),
        Sign::Mul => Val::Int(a.wrapping_mul(b)),
        Sign::Div | Sign::Rem if b == 0 => return Err(Stop(18)),
        Sign::Div => Val::Int(a.wrapping_div(b)),
        Sign::Rem => Val::Int(a.wrapping_rem(b)),
        Sign::Same => Val::Bool(a == b),
        Sign::Less => Val::Bool(a < b),
    })
}

fn apply(o: Word, v: &Val) -> Val {
    match o {
        Word::Fst => v.halves().0.clone(),
        Word::Snd => v.halves().1.clone(),
        Word::Len => Val::Int(v.items().len() as i32),
        Word::Range => Val::list((0..v.int().max(0)).map(Val::Int).collect()),
        Word::Flat => Val::list(v.items().iter().flat_map(|l| l.items().iter().cloned()).collect()),
    }
}

fn part(s: &[Val], c: &[Val]) -> Result<Val, Stop> {
    let lengths: Vec<i64> = c.iter().map(|n| n.int() as i64).collect();
    if lengths.iter().any(|n| *n < 0) || lengths.iter().sum::<i64>() != s.len() as i64 {
        return Err(Stop(20));
    }
    let mut rest = s;
    let mut lists = Vec::with_capacity(lengths.len());
    for n in lengths {
        let (front, back) = rest.split_at(n as usize);
        lists.push(Val::list(front.to_vec()));
        rest = back;
    }
    Ok(Val::list(lists))
}

fn unit(o: Fold) -> Val {
    match o {
        Fold::Sum | Fold::House => Val::Int(0),
        Fold::Max => Val::Int(i32::MIN),
        Fold::Or => Val::Bool(false),
        Fold::Lin => Val::pair(Val::Int(1), Val::Int(0)),
    }
}

/// The house's own operation is the latest result that is not 0.
fn join(o: Fold, x: &Val, y: &Val) -> Val {
    match o {
        Fold::Sum => Val::Int(x.int().wrapping_add(y.int())),
        Fold::Max => Val::Int(x.int().max(y.int())),
        Fold::Or => Val::Bool(x.truth() || y.truth()),
        Fold::House => Val::Int(if y.int() == 0 { x.int() } else { y.int() }),
        Fold::Lin => {
            let (a, b) = (x.halves().0.int(), x.halves().1.int());
            let (c, d) = (y.halves().0.int(), y.halves().1.int());
            Val::pair(Val::Int(a.wrapping_mul(c)), Val::Int(c.wrapping_mul(b).wrapping_add(d)))
        }
    }
}
