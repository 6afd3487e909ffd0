//! Where the reading of a text stopped that is not of the notation: the first token with which no text of the notation can go on, or where the tokens
//! end.
//!
//! Whether a text can go on with its first tokens is asked of the reader itself. If it can at all, then with `''` and what closes its brackets: behind
//! any token `''` may stand as an operand or as the next in a row.

use super::lexer::Lexer;
use super::reader;
use super::{Stop, Why};

/// A token: where it begins and ends, and what it does to brackets.
#[derive(Clone, Copy, Debug, PartialEq, Eq)]
pub struct Token {
    pub start: usize,
    pub end: usize,
    bracket: Bracket,
}

/// What a token does to brackets.
#[derive(Clone, Copy, Debug, PartialEq, Eq)]
enum Bracket {
    /// It opens one, which this byte closes.
    Opens(u8),
    /// It closes one.
    Closes,
    /// Neither.
    None,
}

/// The tokens of a text, from its front to its end or to what is none.
#[derive(Clone, Debug, PartialEq, Eq)]
pub struct Tokens {
    pub tokens: Vec<Token>,
    /// Where they end, and why there.
    pub stop: Stop,
}

/// The tokens of a text.
pub fn tokens(text: &[u8]) -> Tokens {
    tokens_of(&Lexer::new(text, None))
}

fn tokens_of(lexer: &Lexer) -> Tokens {
    let mut tokens = Vec::new();
    let mut at = lexer.gap(0);
    loop {
        let why = match token(lexer, at) {
            Some((end, bracket)) => {
                tokens.push(Token { start: at, end, bracket });
                at = lexer.gap(end);
                continue;
            }
            None if lexer.rest(at).is_empty() => Why::End,
            None if lexer.open_comment(at) => Why::OpenComment,
            None => Why::NoToken,
        };
        return Tokens { tokens, stop: Stop { why, at } };
    }
}

/// Behind the token that stands here.
fn token(lexer: &Lexer, at: usize) -> Option<(usize, Bracket)> {
    if lexer.open_comment(at) {
        return None;
    }
    if let Some((_, end)) = lexer.head(at) {
        return Some((end, Bracket::None));
    }
    if let Some((_, end)) = lexer.leaf(at) {
        return Some((end, Bracket::None));
    }
    if let Some((_, end)) = lexer.opener(at) {
        return Some((end, Bracket::Opens(b'>')));
    }
    match lexer.rest(at).first()? {
        b'(' => Some((at + 1, Bracket::Opens(b')'))),
        b')' | b'>' => Some((at + 1, Bracket::Closes)),
        b'/' | b'&' | b'!' | b'?' | b'*' | b'+' => Some((at + 1, Bracket::None)),
        _ => None,
    }
}

/// Where the reading of this text stopped, which is not of the notation. The furthest place that the reader tried is looked at first: it is mostly there.
pub fn stopped(lexer: &Lexer, tried: usize) -> Stop {
    let Tokens { tokens, stop } = tokens_of(lexer);
    let can = |count: usize| count == 0 || count <= tokens.len() && can_go_on(lexer, &tokens[..count]);
    let near = tokens.partition_point(|token| token.start < tried);
    let count = if can(near) && !can(near + 1) { near } else { most(tokens.len(), can) };
    match tokens.get(count) {
        Some(token) => Stop { why: Why::Token, at: token.start },
        None => stop,
    }
}

/// With how many tokens a text can go on. One that can go on with some can go on with fewer.
fn most(count: usize, can: impl Fn(usize) -> bool) -> usize {
    let (mut most, mut too_many) = (0, count + 1);
    while most + 1 < too_many {
        let middle = (most + too_many) / 2;
        match can(middle) {
            true => most = middle,
            false => too_many = middle,
        }
    }
    most
}

/// Whether some text of the notation begins with these tokens, of which there is one at least.
fn can_go_on(lexer: &Lexer, tokens: &[Token]) -> bool {
    let mut closers = Vec::new();
    for token in tokens {
        match token.bracket {
            Bracket::Opens(closer) => closers.push(closer),
            Bracket::Closes => drop(closers.pop()),
            Bracket::None => {}
        }
    }
    let mut text = lexer.text[..tokens[tokens.len() - 1].end].to_vec();
    text.extend(b"''");
    text.extend(closers.iter().rev());
    reader::read(&Lexer::new(&text, lexer.fault)).is_ok()
}
