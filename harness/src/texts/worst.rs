//! Texts that take `compile` long for their length: each fills a length with what one of its passes has the most work with.

use super::extremes::short_name;

/// A text, and what takes long in it.
pub struct Worst {
    pub what: &'static str,
    pub text: Vec<u8>,
}

/// All of them, filled up to a length.
pub fn all(length: usize) -> Vec<Worst> {
    let all = [names(length), defs(length), marks(length), contents(length), ends(length)];
    let padded = |(what, text): (&'static str, String)| {
        assert!(text.len() <= length, "{what}");
        Worst { what, text: format!("{text:length$}").into_bytes() }
    };
    all.into_iter().flatten().map(padded).collect()
}

type Text = (&'static str, String);

/// A front, as many of a part as there is room for, and a back.
fn many(length: usize, front: &str, part: &str, back: &str) -> String {
    let count = (length - front.len() - back.len()) / part.len();
    [front, &part.repeat(count), back].concat()
}

/// As many brackets as there is room for, around any byte, between a front and a back.
fn brackets(length: usize, front: &str, back: &str) -> String {
    let deep = (length - front.len() - back.len() - 1) / 2;
    [front, &"(".repeat(deep), ".", &")".repeat(deep), back].concat()
}

/// The shortest names, as many as there is room for if each stands between a front and a back; in byte order.
fn shortest(length: usize, front: &str, back: &str) -> Vec<String> {
    let mut left = length;
    let mut names = Vec::new();
    loop {
        let name = short_name(names.len());
        let takes = front.len() + name.len() + back.len();
        if left < takes {
            names.sort_unstable();
            return names;
        }
        left -= takes;
        names.push(name);
    }
}

/// Names between a front and a back, one behind the other.
fn each<'a>(names: impl IntoIterator<Item = &'a String>, front: &str, back: &str) -> String {
    names.into_iter().map(|name| [front, name, back].concat()).collect()
}

fn names(length: usize) -> Vec<Text> {
    let productions = shortest(length - 8, "", "=.");
    let calls = shortest(length, "=", " A");
    let tables = shortest(length - 2, "<def ", ".>");
    let conditions = shortest(length - 2, "<if ", ">");
    // Each production calls the next. All names begin alike, and so does what a search compares.
    let stem = "n".repeat(length / 1024 - 6);
    let alike: Vec<String> = (100..612).map(|number| format!("{stem}{number}")).collect();
    let chain: String = alike.iter().zip(alike.iter().cycle().skip(1)).map(|(name, next)| format!("{name}={next} ")).collect();
    let long = "n".repeat(length / 2 - 1);
    let turned = |names: &[String]| names.iter().rev().cloned().collect::<Vec<String>>();
    vec![
        ("productions in byte order of their names", each(&productions, "", "=.")),
        ("productions in the reverse order", each(&turned(&productions), "", "=.")),
        ("productions in the reverse order, each a call of the first", each(&turned(&calls), "", "=A ")),
        ("tables in the reverse order", format!("A={}", each(&turned(&tables), "<def ", ".>"))),
        ("conditions in the reverse order", format!("A={}", each(&turned(&conditions), "<if ", ">"))),
        ("512 productions whose names differ at their ends, each a call of the next", chain),
        ("a name that fills half of the text, and a call of it", format!("{long}={long}")),
        ("a call of one name again and again", many(length, "A=", "A ", "")),
    ]
}

fn defs(length: usize) -> Vec<Text> {
    let half = length / 2;
    let body = ".".repeat(half - 20);
    let nested = nested(&shortest(half - 10, "<def ", ">"), ".");
    vec![
        ("short defs of one table", many(length, "A=", "<def T.>", "")),
        ("a def in brackets, and short ones of its table", many(length, &brackets(half, "A=<def T", ">"), "<def T.>", "")),
        ("a def with a comment in it, and short ones of its table", many(length, &many(half, "A=<def T./*", "*", "*/>"), "<def T.>", "")),
        ("a def with blanks in it, and short ones of its table", many(length, &many(half, "A=<def T.", " ", ">"), "<def T.>", "")),
        ("two long defs that are alike", format!("A=<def T {body}>B=<def T {body}>")),
        ("defs in one another, and all of them again", format!("A={nested}{nested}")),
        ("defs in one another around brackets, and each again, the inmost first", again_inmost_first(length)),
    ]
}

/// Defs of these tables in one another, around an expression.
fn nested<T: AsRef<str>>(tables: &[T], around: &str) -> String {
    let fronts: String = tables.iter().map(|table| format!("<def {}", table.as_ref())).collect();
    [&fronts, around, &">".repeat(tables.len())].concat()
}

/// A third of the text for the defs that come again.
fn again_inmost_first(length: usize) -> String {
    let mut tables: Vec<String> = Vec::new();
    let mut again = String::new();
    loop {
        tables.insert(0, short_name(tables.len() + 53));
        let more = nested(&tables, ".");
        if length / 3 < again.len() + more.len() {
            tables.remove(0);
            let around = brackets(length - again.len() - nested(&tables, "").len() - 2, "", "");
            return ["A=", &nested(&tables, &around), &again].concat();
        }
        again.push_str(&more);
    }
}

fn marks(length: usize) -> Vec<Text> {
    vec![
        ("brackets, as deep as can be", brackets(length, "A=", "")),
        ("brackets side by side", many(length, "A=.", "(.)", "")),
        ("!", many(length, "A=", "!", ".")),
        ("+", many(length, "A=.", "+", "")),
        ("alternatives", many(length, "A=.", "/.", "")),
        ("any byte, in a row", many(length, "A=", ".", "")),
        ("blanks", many(length, "A=.", " ", "")),
        ("short comments", many(length, "A=.", "/**/", "")),
        ("a comment of stars", many(length, "A=./*", "*", "*/")),
        ("a comment of one line", many(length, "A=.", "/", "")),
    ]
}

fn contents(length: usize) -> Vec<Text> {
    // As many texts of 64 bytes as an image holds, each byte an escape.
    let texts: String = (0..(length / 265).min(247)).map(|number| format!("{}='{}'\n", short_name(number), "\\x41".repeat(64))).collect();
    let class = format!("[{}]", (1..=255u8).map(|byte| format!("\\x{byte:02x}")).collect::<String>());
    vec![
        ("a quoted text of escapes", many(length, "A='", "\\x41", "'")),
        ("a quoted text of bytes", many(length, "A='", "a", "'")),
        ("quoted texts of 64 escapes, which fill the image", texts),
        ("a class of single bytes", many(length, "A=[", "a", "]")),
        ("a class of escaped ranges", many(length, "A=[", "\\x41-\\x5a", "]")),
        ("a class of 255 bytes, and brackets", brackets(length, &format!("A={class}"), "")),
        ("empty texts", many(length, "A=", "''", "")),
    ]
}

fn ends(length: usize) -> Vec<Text> {
    let productions = each(&shortest(length - 20, "", "=."), "", "=.");
    vec![
        ("20: a bracket at the end", many(length, "A=", ".", ")")),
        ("20: a comment that is not closed, behind brackets", format!("{}/*", brackets(length - 2, "A=", ""))),
        ("21: a name at the end", format!("{productions}Z=Not_defined")),
        ("22: a name at the end", format!("{productions}A=.")),
        ("23: a def at the end", many(length, "A=", "<def T.>", "<def T'a'>")),
        ("24: a condition at the end", many(length - 70, "A=", "<if A>", &each(&shortest(63, "<if ", ">"), "<if ", ">"))),
    ]
}
