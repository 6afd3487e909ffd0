//! The second reader of grammar texts, and the library's `compile`, held to docs/notation.md: its examples, and its own grammar. The samples mean what is
//! expected of them.

use yarnspire::compiled::image_of;
use yarnspire::files;
use yarnspire::grammar::{Grammar, Node};
use yarnspire::harbour;
use yarnspire::notation::meaning::{self, Cap, Meant};
use yarnspire::notation::{compile, on_deep_stack, read, tokens, Compiled, Tokens, Why};
use yarnspire::outcome::Refused;
use yarnspire::samples::{self, Expected};
use yarnspire::texts::Maker;
use yarnspire::{check, recognise, Answer, Limits};

fn page() -> String {
    files::text("docs/notation.md")
}

/// What a good text becomes. The library gives it the same image.
fn compiled(text: &[u8]) -> Compiled {
    let compiled = compile(text, None).unwrap_or_else(|stop| panic!("{}", Refused::from(stop)));
    assert_eq!(image_of(text).as_ref(), Ok(&compiled.image));
    compiled
}

/// The reader and the library refuse a text with this number, at this place.
fn assert_refused(text: &str, number: u32, at: u32) {
    let refused = Refused { number, at };
    assert_eq!(compile(text.as_bytes(), None).map_err(Refused::from), Err(refused), "{text}, by the reader");
    assert_eq!(image_of(text.as_bytes()), Err(refused), "{text}, by the library");
}

/// The lines of the page's table of examples: number, text and place.
fn examples(page: &str) -> Vec<(u32, String, u32)> {
    let table = page.split("| no. | text | place | |").nth(1).expect("the page has a table of examples");
    let lines = table.lines().skip(2).take_while(|line| line.starts_with('|'));
    lines.map(|line| example(line).unwrap_or_else(|| panic!("no example: {line}"))).collect()
}

/// `| 20 | `A =` | 3 | an expression is due |`, where `\n` in the text is an end of line.
fn example(line: &str) -> Option<(u32, String, u32)> {
    let (number, rest) = line.strip_prefix("| ")?.split_once(" | `")?;
    let (text, rest) = rest.split_once("` | ")?;
    let (place, _) = rest.split_once(" | ")?;
    Some((number.parse().ok()?, text.replace("\\n", "\n"), place.parse().ok()?))
}

#[test]
fn every_example_is_refused_there() {
    let page = page();
    let examples = examples(&page);
    assert!(examples.len() >= 22);
    for (number, text, at) in examples {
        assert_refused(&text, number, at);
    }
}

/// The page's blocks of text, in their order.
fn blocks(page: &str) -> Vec<&str> {
    let opened = page.split("```text\n").skip(1);
    opened.map(|block| block.split("```").next().unwrap_or(block)).collect()
}

/// The answer under the greatest limits, and the names that are held: table and text of each.
fn answer<'a>(compiled: &'a Compiled, input: &'a [u8]) -> (Answer, Vec<(&'a str, &'a [u8])>) {
    assert_eq!(check(&compiled.image), Ok(()));
    let mut slots = vec![0; Limits::AMPLE.slots()];
    let answer = recognise(&compiled.image, input, Limits::AMPLE, &mut slots);
    let held = answer.symbols(&slots).map(|symbol| (compiled.tables[symbol.table].as_str(), symbol.text(input))).collect();
    (answer, held)
}

#[test]
fn the_grammar_of_the_first_page_accepts_its_bulletin() {
    let page = page();
    let blocks = blocks(&page);
    let (bulletin, grammar) = (blocks[0].as_bytes(), compiled(blocks[1].as_bytes()));
    let (answer, held) = answer(&grammar, bulletin);
    assert!(matches!(answer, Answer::Accepted { consumed, .. } if consumed == bulletin.len()), "{answer:?}");
    assert_eq!(held, [("OPEN", &b"Q7"[..]), ("OPEN", b"Q8")]);
}

#[test]
fn image_h_is_written() {
    let page = page();
    let (_, behind) = page.split_once("So `").expect("the page has an example of numbered nodes");
    let (text, _) = behind.split_once("` is the image H").expect("it is image H");
    assert_eq!(compiled(text.as_bytes()).image, harbour::H);
}

/// The nodes of the first production, with this expression. T has a def behind it.
fn nodes(expression: &str) -> Vec<Node> {
    let Grammar { mut nodes, start, .. } = compiled(format!("A = {expression}\nB = <def T 'b'>").as_bytes()).grammar;
    nodes.truncate(start + 1);
    nodes
}

#[test]
fn each_operator_becomes_its_nodes() {
    use Node::*;
    let text = |bytes: &[u8]| Text(bytes.to_vec());
    let table = [
        ("''", vec![Empty]),
        ("'a'", vec![Byte(b'a')]),
        ("'abc'", vec![text(b"abc")]),
        (".", vec![Any]),
        ("[a]", vec![Byte(b'a')]),
        ("[a-z]", vec![Range(b'a', b'z')]),
        ("[a-a]", vec![Byte(b'a')]),
        ("[aa]", vec![Byte(b'a'), Byte(b'a'), Choice(0, 1)]),
        ("[a-z0-9_]", vec![Range(b'a', b'z'), Range(b'0', b'9'), Byte(b'_'), Choice(1, 2), Choice(0, 3)]),
        (". 'a'", vec![Any, Byte(b'a'), Sequence(0, 1)]),
        (". 'a' ''", vec![Any, Byte(b'a'), Empty, Sequence(1, 2), Sequence(0, 3)]),
        ("(. 'a') ''", vec![Any, Byte(b'a'), Sequence(0, 1), Empty, Sequence(2, 3)]),
        (". / 'a'", vec![Any, Byte(b'a'), Choice(0, 1)]),
        (". / 'a' / ''", vec![Any, Byte(b'a'), Empty, Choice(1, 2), Choice(0, 3)]),
        (". 'a' / ''", vec![Any, Byte(b'a'), Sequence(0, 1), Empty, Choice(2, 3)]),
        (". / 'a' ''", vec![Any, Byte(b'a'), Empty, Sequence(1, 2), Choice(0, 3)]),
        (".*", vec![Any, Star(0)]),
        (".+", vec![Any, Star(0), Sequence(0, 1)]),
        (".?", vec![Any, Empty, Choice(0, 1)]),
        (".?*", vec![Any, Empty, Choice(0, 1), Star(2)]),
        ("!.", vec![Any, Not(0)]),
        ("&.", vec![Any, Not(0), Not(1)]),
        ("!.*", vec![Any, Star(0), Not(1)]),
        ("(!.)*", vec![Any, Not(0), Star(1)]),
        ("!&.", vec![Any, Not(0), Not(1), Not(2)]),
        ("A", vec![Call(0)]),
        ("B", vec![Call(2)]),
        ("<def T 'b'>", vec![Byte(b'b'), Def(0)]),
        ("<match T>", vec![Match(0)]),
        ("<is T>", vec![Is(0)]),
        ("<isa T>", vec![Isa(0)]),
        ("<exists T>", vec![Exists(0)]),
        ("<block T .>", vec![Any, Block(0, 0)]),
        ("<local T .>", vec![Any, Local(0, 0)]),
        ("<if C>", vec![If(0, true)]),
        ("<if !C>", vec![If(0, false)]),
        ("<on C .>", vec![Any, On(0, true, 0)]),
        ("<on !C .>", vec![Any, On(0, false, 0)]),
    ];
    for (expression, expected) in table {
        assert_eq!(nodes(expression), expected, "{expression}");
    }
}

#[test]
fn bytes_are_read_as_they_are_written() {
    use Node::*;
    let text = |bytes: &[u8]| vec![Text(bytes.to_vec())];
    assert_eq!(nodes(r#"'\n\r\t\\\'\"\[\]\-\^\x0d\xAf'"#), text(b"\n\r\t\\'\"[]-^\x0d\xaf"));
    assert_eq!(nodes(r#""it's""#), text(b"it's"));
    assert_eq!(nodes("'/* // <def T'"), text(b"/* // <def T"));
    assert_eq!(nodes("'\u{e4}'"), text(b"\xc3\xa4"));
    let parts = |class: &str| -> Vec<Node> { nodes(class).into_iter().filter(|node| !matches!(node, Choice(..))).collect() };
    assert_eq!(parts("[-a]"), [Byte(b'-'), Byte(b'a')]);
    assert_eq!(parts("[a-]"), [Byte(b'a'), Byte(b'-')]);
    assert_eq!(parts("[--]"), [Byte(b'-'), Byte(b'-')]);
    assert_eq!(parts("[+--]"), [Range(b'+', b'-')]);
    assert_eq!(parts("[---]"), [Byte(b'-')]);
    assert_eq!(parts("[a-b-c]"), [Range(b'a', b'b'), Byte(b'-'), Byte(b'c')]);
    assert_eq!(parts(r"[a\-c]"), [Byte(b'a'), Byte(b'-'), Byte(b'c')]);
    assert_eq!(parts(r"[\x41-\]]"), [Range(b'A', b']')]);
    assert_eq!(parts(r"[\^a^['//]"), [Byte(b'^'), Byte(b'a'), Byte(b'^'), Byte(b'['), Byte(b'\''), Byte(b'/'), Byte(b'/')]);
}

#[test]
fn tables_and_conditions_are_numbered_in_byte_order() {
    let text = b"A = <if b> <if a1> <if a> <if B> <def b .> <def a1 ''> <def a 'a'> <def B ''+>";
    let compiled = compiled(text);
    assert_eq!(compiled.tables, ["B", "a", "a1", "b"]);
    let of_kind = |kind: fn(&Node) -> Option<usize>| -> Vec<usize> { compiled.grammar.nodes.iter().filter_map(kind).collect() };
    let switch = |node: &Node| if let Node::If(condition, true) = node { Some(*condition) } else { None };
    assert_eq!(of_kind(switch), [3, 2, 1, 0]);
    let pattern = |table: usize| &compiled.grammar.nodes[compiled.grammar.patterns[table]];
    assert_eq!([pattern(1), pattern(2), pattern(3)], [&Node::Byte(b'a'), &Node::Empty, &Node::Any]);
    assert!(matches!(pattern(0), Node::Sequence(..)));
}

/// More places than the page's table has, worked out from its words.
#[test]
fn refusals_have_their_places() {
    let table: [(&str, u32, u32); 33] = [
        ("  ", 20, 2),
        ("// no more", 20, 10),
        ("A", 20, 0),
        ("A = . B", 21, 6),
        (" ) A = .", 20, 1),
        ("A = B = .", 20, 4),
        ("A = . = .", 20, 6),
        ("A = (b C = .)", 20, 7),
        ("A = b / C = .", 20, 8),
        ("A = !", 20, 5),
        ("A = ! * .", 20, 6),
        ("A = . ! / .", 20, 8),
        ("A = (.>", 20, 6),
        ("A = <def T .)", 20, 12),
        ("A = <def T", 20, 10),
        ("A = <def T = .>", 20, 11),
        ("A = <def>", 20, 4),
        ("A = <on ! ! C .>", 20, 4),
        ("A = <if C .>", 20, 4),
        ("A = <is T /* ", 20, 4),
        ("A = <def T /* ", 20, 11),
        ("A /* ", 20, 0),
        ("A = b /* ", 20, 6),
        ("A = b c/*=", 20, 7),
        ("A = b /**/ // /*\n/* = .", 20, 17),
        ("A = . /*/", 20, 6),
        ("A = . /**//*", 20, 10),
        ("A = '\n'", 20, 4),
        ("A = [a\n]", 20, 4),
        ("A = C <is T>\nB = <is C>", 21, 4),
        ("A = .\nB = .\nB = .\nA = .", 22, 12),
        ("A = <def T .>\nA = <def T ''>", 22, 14),
        ("A = <def T <def T .>>", 23, 11),
    ];
    for (text, number, at) in table {
        assert_refused(text, number, at);
    }
}

/// A line of samples/expected without what counts the machine's steps; none for a refusal, which hangs on them.
fn without_steps(line: &str) -> Option<String> {
    match line.split(' ').collect::<Vec<_>>()[..] {
        ["accept", consumed, _, _, symbols] => Some(format!("accept {consumed} {symbols}")),
        ["fail", ..] => Some("fail".into()),
        ["refuse", ..] => None,
        _ => panic!("no answer: {line}"),
    }
}

#[test]
fn the_samples_mean_what_is_expected_of_them() {
    for entry in samples::expected() {
        let (grammar, input) = (compiled(&samples::grammar(&entry.sample)), entry.input());
        let Expected { name, line, .. } = entry;
        let meant = match meaning::run(&grammar.productions, &input, Cap { steps: 10_000, depth: 100 }) {
            Meant::Accepted { consumed, symbols } => Some(format!("accept {consumed} {}", symbols.len())),
            Meant::Failed => Some("fail".into()),
            Meant::GivenUp(_) => None,
        };
        if let Some(wanted) = without_steps(&line) {
            assert_eq!(meant, Some(wanted), "{name}");
        }
    }
}

/// The page's grammar of the notation, which is nearly a text of the notation: `<-` stands for `=`.
fn own_grammar() -> Compiled {
    compiled(blocks(&page())[2].replace(" <- ", " = ").as_bytes())
}

/// Whether the page's grammar accepts a text, by the meaning of its productions and by the library; none if the limits do not allow an answer.
fn accepted_by(own: &Compiled, text: &[u8]) -> (Option<bool>, Option<bool>) {
    let meant = match meaning::run(&own.productions, text, Cap { steps: 1_000_000, depth: 100_000 }) {
        Meant::Accepted { consumed, .. } => Some(consumed == text.len()),
        Meant::Failed => Some(false),
        Meant::GivenUp(_) => None,
    };
    let ran = match recognise(&own.image, text, Limits { room: 0, ..Limits::AMPLE }, &mut []) {
        Answer::Accepted { consumed, .. } => Some(consumed == text.len()),
        Answer::Failed { .. } => Some(false),
        Answer::Refused { .. } => None,
    };
    (meant, ran)
}

/// A range that goes down is no token, and the page's grammar does not say so.
fn stops_at_a_class(text: &[u8]) -> bool {
    let stop = tokens(text).stop;
    stop.why == Why::NoToken && text[stop.at] == b'['
}

#[test]
fn the_pages_grammar_accepts_what_is_read() {
    on_deep_stack(|| {
        let own = own_grammar();
        let mut maker = Maker::new(1);
        let (mut accepted, mut failed, mut ran) = (0, 0, 0);
        for _ in 0..3000 {
            let text = maker.case().text;
            if text.len() > 2000 {
                continue;
            }
            let good = read(&text).is_some();
            let (meant, by_library) = accepted_by(&own, &text);
            if meant == Some(true) && !good && stops_at_a_class(&text) {
                continue;
            }
            let shown = String::from_utf8_lossy(&text);
            assert_eq!(meant, Some(good), "{shown}");
            assert!(by_library.map_or(true, |accepted| accepted == good), "{shown}");
            accepted += i32::from(good);
            failed += i32::from(!good);
            ran += i32::from(by_library.is_some());
        }
        assert!(accepted > 2000 && failed > 400 && ran > 2000, "{accepted} accepted, {failed} failed, {ran} of them also by the library");
    });
}

/// The place of 20 in another way: token by token, with what may come next.
fn place_by_steps(text: &[u8]) -> usize {
    let Tokens { tokens, stop } = tokens(text);
    let mut open = Vec::new();
    let (mut begun, mut due) = (false, false);
    for token in tokens {
        let bytes = &text[token.start..token.end];
        let fits = match (bytes[0], bytes[bytes.len() - 1]) {
            (b'A'..=b'Z' | b'a'..=b'z' | b'_', b'=') => {
                let fits = open.is_empty() && !due;
                begun = true;
                due = true;
                fits
            }
            (b'(', _) => {
                open.push(b')');
                due = true;
                begun
            }
            (b'<', last) if last != b'>' => {
                open.push(b'>');
                due = true;
                begun
            }
            (b')' | b'>', closer) => begun && !due && open.pop() == Some(closer),
            (b'!' | b'&', _) => {
                due = true;
                begun
            }
            (b'?' | b'*' | b'+', _) => begun && !due,
            (b'/', _) => {
                let fits = begun && !due;
                due = true;
                fits
            }
            _ => {
                due = false;
                begun
            }
        };
        if !fits {
            return token.start;
        }
    }
    stop.at
}

#[test]
fn reading_stops_at_the_first_token_that_does_not_fit() {
    on_deep_stack(|| {
        let mut maker = Maker::new(2);
        let mut seen = 0;
        for _ in 0..20_000 {
            let text = maker.case().text;
            match compile(&text, None) {
                Err(stop) if stop.why.number() == 20 && stop.why != Why::TooLong => {
                    assert_eq!(stop.at, place_by_steps(&text), "{}", String::from_utf8_lossy(&text));
                    seen += 1;
                }
                _ => {}
            }
        }
        assert!(seen > 3000, "{seen}");
    });
}
