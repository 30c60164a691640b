//! Measures the direct run beside a plain tree-walking interpreter, in nanoseconds per unit of work.
//!
//!     cargo run --release -- [PROGRAM]
//!
//! PROGRAM is the proved program that times the direct run (by default `../target/bin/timing`); it reads one case a line, the
//! budget, the program and the input with tabs between, and answers a line for each: the work and the nanoseconds of one run.

mod interp;
mod parse;

use interp::{Run, Val};
use parse::Parser;
use std::io::Write;
use std::process::{Command, Stdio};
use std::time::Instant;

const BUDGET: u64 = 20_000;

struct Case {
    name: &'static str,
    program: &'static str,
    input: String,
}

fn ints(n: usize) -> String {
    let items: Vec<String> = (0..n).map(|i| ((i * 7919) % 101).to_string()).collect();
    format!("[{}]", items.join(","))
}

fn rows(n: usize, m: usize) -> String {
    let items: Vec<String> = (0..n).map(|i| ints(if i % 5 == 4 { 0 } else { m })).collect();
    format!("[{}]", items.join(","))
}

fn pairs(n: usize) -> String {
    let items: Vec<String> = (0..n).map(|i| format!("({},{})", i % 7, i % 11)).collect();
    format!("[{}]", items.join(","))
}

/// Ten programs whose work comes close to the budget.
fn cases() -> Vec<Case> {
    vec![
        Case { name: "totals of rows", program: "main(s:[[int]]):[int] = {reduce sum(r) : r in s}", input: rows(90, 10) },
        Case { name: "affine chain", program: "main(s:[int]):[int] = {(x * 3 + 7) % 101 - x : x in s}", input: ints(640) },
        Case { name: "nested sums", program: "main(s:[int]):[int] = {reduce sum({x * y : y in s}) : x in s}", input: ints(36) },
        Case { name: "index chain", program: "main(s:[int]):[int] = {let k = len(s) in s[s[s[x % k] % k] % k] : x in s}", input: ints(28) },
        Case { name: "running sums", program: "main(s:[[int]]):[[int]] = {scan sum(r) : r in s}", input: rows(90, 10) },
        Case { name: "best so far", program: "main(s:[int]):int = reduce max(flat({scan max({x + y : y in s}) : x in s}))", input: ints(30) },
        Case { name: "parts and flat", program: "main(s:[int]):[int] = flat(part(flat({[x,x+1] : x in s}), {2 : x in s}))", input: ints(400) },
        Case { name: "filter and if", program: "main(s:[int]):[int] = {if x < 50 then x * x else 0 - x : x in s | 0 < x}", input: ints(600) },
        Case { name: "affine maps", program: "main(s:[(int,int)]):[(int,int)] = scan lin({(fst(p)+1,snd(p)*2) : p in s})", input: pairs(340) },
        Case { name: "ranges", program: "main(s:[int]):[int] = {reduce sum({i * i : i in range(x % 20)}) : x in s}", input: ints(130) },
    ]
}

/// The work of a run and the nanoseconds that one takes, the best of several rounds.
fn measure(case: &Case) -> (u64, f64) {
    let program = Parser::new(case.program).program();
    let input: Val = Parser::new(&case.input).value();
    let mut work = 0;
    let mut best = f64::INFINITY;
    for _ in 0..20 {
        let start = Instant::now();
        for _ in 0..50 {
            let mut run = Run::new(BUDGET, input.clone());
            let value = run.eval(&program);
            assert!(value.is_ok(), "{}: refused after {}", case.name, run.work);
            std::hint::black_box(&value.ok());
            work = run.work;
        }
        best = best.min(start.elapsed().as_nanos() as f64 / 50.0);
    }
    (work, best)
}

fn timed_by(program: &str, cases: &[Case]) -> Vec<(u64, f64)> {
    let mut child = Command::new(program)
        .arg("time")
        .stdin(Stdio::piped())
        .stdout(Stdio::piped())
        .spawn()
        .expect("the timing program runs");
    let mut lines = String::new();
    for case in cases {
        lines.push_str(&format!("{BUDGET}\t{}\t{}\n", case.program, case.input));
    }
    child.stdin.take().unwrap().write_all(lines.as_bytes()).unwrap();
    let output = child.wait_with_output().unwrap();
    String::from_utf8_lossy(&output.stdout)
        .lines()
        .map(|line| {
            let (work, nanos) = line.split_once(' ').expect("work and nanoseconds");
            (work.parse().unwrap(), nanos.parse().unwrap())
        })
        .collect()
}

fn main() {
    let program = std::env::args().nth(1).unwrap_or("../target/bin/timing".into());
    let cases = cases();
    let direct = timed_by(&program, &cases);
    println!("{:<16} {:>6} {:>12} {:>12} {:>6}", "program", "work", "direct ns/u", "plain ns/u", "ratio");
    for (case, (work, nanos)) in cases.iter().zip(direct) {
        let (expected, plain) = measure(case);
        assert_eq!(work, expected, "{}: the works differ", case.name);
        let (a, b) = (nanos / work as f64, plain / work as f64);
        println!("{:<16} {:>6} {:>12.2} {:>12.2} {:>6.2}", case.name, work, a, b, a / b);
    }
}
