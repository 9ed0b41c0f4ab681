//! The same systems in Maude: each name an operator with its order as the `strat` attribute, each rule an equation.

use crate::book::{Book, Side};
use std::process::Command;

/// What Maude tells of its speed.
pub struct Rate {
    /// in one evaluation of the cue: fewer than the steps where equal parts are shared
    pub rewrites: u64,
    /// for each second, over many evaluations; none where that took no time that it tells
    pub each_second: Option<f64>,
}

impl Rate {
    pub fn shown(&self) -> String {
        match self.each_second {
            _ if self.rewrites == 0 => "-".into(),
            Some(r) => format!("{r:.0}"),
            None => "~".into(),
        }
    }
}

pub fn present() -> bool {
    Command::new("maude").arg("--version").output().is_ok()
}

fn term(side: &Side) -> String {
    match side {
        Side::Hole(k) => format!("X{k}"),
        Side::Named(n, arguments) if arguments.is_empty() => format!("n{n}"),
        Side::Named(n, arguments) => format!("n{n}({})", arguments.iter().map(term).collect::<Vec<_>>().join(", ")),
    }
}

fn put_cue(book: &Book, words: &[u16], at: &mut usize, out: &mut String) {
    let n = words[*at] as usize;
    *at += 1;
    out.push_str(&format!("n{n}"));
    for i in 0..book.names[n].arguments {
        out.push_str(if i == 0 { "(" } else { ", " });
        put_cue(book, words, at, out);
    }
    if book.names[n].arguments > 0 {
        out.push(')');
    }
}

fn cue(book: &Book, words: &[u16]) -> String {
    let mut c = String::new();
    put_cue(book, words, &mut 0, &mut c);
    c
}

/// The book's names and rules.
fn system(book: &Book) -> String {
    let mut m = String::from("  sort T .\n");
    for (k, n) in book.names.iter().enumerate() {
        let sorts = vec!["T"; n.arguments].join(" ");
        // Maude wants a 0 at the end; at a name with no rules it changes nothing
        let mut order = n.order.clone();
        if order.last() != Some(&0) {
            order.push(0);
        }
        let order: Vec<String> = order.iter().map(|e| e.to_string()).collect();
        let strat = if n.arguments == 0 { String::new() } else { format!(" [strat ({})]", order.join(" ")) };
        m.push_str(&format!("  op n{k} : {sorts} -> T{strat} .\n"));
    }
    let holes: Vec<String> = (0..16).map(|k| format!("X{k}")).collect();
    m.push_str(&format!("  vars {} : T .\n", holes.join(" ")));
    for r in &book.rules {
        m.push_str(&format!("  eq {} = {} .\n", term(&r.left), term(&r.right)));
    }
    m
}

/// The cue 2^`twofold` times: `again0` evaluates it and goes on, and each next `again` is the one before it twice.
fn many_times(book: &Book, words: &[u16], twofold: u32) -> String {
    let mut m = format!("fmod SHOW is\n{}", system(book));
    m.push_str("  sort Rounds .\n  op cue : -> T .\n  op over : -> Rounds .\n  var R : Rounds .\n");
    m.push_str("  op keep : T Rounds -> Rounds [strat (1 0)] .\n");
    m.push_str(&format!("  eq cue = {} .\n  eq keep(X0, R) = R .\n", cue(book, words)));
    for k in 0..=twofold {
        m.push_str(&format!("  op again{k} : Rounds -> Rounds [strat (0)] .\n"));
    }
    m.push_str("  eq again0(R) = keep(cue, R) .\n");
    for k in 0..twofold {
        m.push_str(&format!("  eq again{}(R) = again{k}(again{k}(R)) .\n", k + 1));
    }
    m.push_str(&format!("endfm\nreduce again{twofold}(over) .\nquit\n"));
    m
}

/// What Maude prints for a file.
fn printed(label: &str, text: &str) -> Result<String, String> {
    let file = std::env::temp_dir().join(format!("{}-{}.maude", label.replace([' ', ','], "-"), std::process::id()));
    std::fs::write(&file, text).map_err(|e| e.to_string())?;
    let output = Command::new("maude").args(["-no-banner", "-no-wrap", "-no-advise"]).arg(&file).output();
    let _ = std::fs::remove_file(&file);
    output.map(|o| String::from_utf8_lossy(&o.stdout).into_owned()).map_err(|e| e.to_string())
}

/// The names in a printed term, in reading order: its words.
fn names(text: &str) -> Vec<u16> {
    text.split(|c: char| !c.is_ascii_alphanumeric()).filter_map(|w| w.strip_prefix('n')?.parse().ok()).collect()
}

/// The rewrites of a run and its milliseconds: `rewrites: 1234 in 56ms cpu (57ms real) (22035 rewrites/second)`.
fn counted(text: &str) -> Option<(u64, f64)> {
    let line = text.lines().find_map(|l| l.strip_prefix("rewrites: "))?;
    let (rewrites, time) = line.split_once(" in ")?;
    Some((rewrites.parse().ok()?, time.split_once("ms cpu")?.0.parse().ok()?))
}

/// The words of Maude's answer; none where it is not installed.
pub fn run(label: &str, book: &Book, words: &[u16]) -> Option<Result<Vec<u16>, String>> {
    if !present() {
        return None;
    }
    let module = format!("fmod SHOW is\n{}endfm\nreduce {} .\nquit\n", system(book), cue(book, words));
    Some(printed(label, &module).and_then(|text| match text.split_once("result T:") {
        Some((_, result)) => Ok(names(result)),
        None => Err(format!("no result: {text}")),
    }))
}

/// Its speed over as many evaluations as some millions of steps and words are, since it counts in milliseconds. The rewrites that only repeat
/// the cue are none of its own: three for each time, and those that double.
pub fn rate(label: &str, book: &Book, words: &[u16], steps: u32) -> Option<Rate> {
    let twofold = (8_000_000 / (steps as usize + words.len()).max(1)).max(1).ilog2();
    let (all, time) = counted(&printed(label, &many_times(book, words, twofold)).ok()?)?;
    let times = 1u64 << twofold;
    let rewrites = all.checked_sub(4 * times - 1)? / times;
    Some(Rate { rewrites, each_second: (time > 0.0).then(|| (rewrites * times) as f64 * 1000.0 / time) })
}
