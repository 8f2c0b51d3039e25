//! Reading and writing the tokens of a row.
use crate::fault::Fault;
use std::alloc::{AllocError, Global};

/// A run of one character that is at least this long is written as a repetition.
const LONG_RUN: usize = 12;

/// A word or a number, a text, or a sign.
#[derive(Drop, PartialEq, Eq)]
pub enum Token {
    Word(String),
    Text(String),
    /// `=`, between a key and its value.
    Equals,
    /// `=>`, between a call and its answer.
    Arrow,
}

/// The unread rest of a row.
#[derive(Drop)]
pub struct Cursor<'a> {
    rest: &'a str,
}

impl<'a> Cursor<'a> {
    pub fn new(row: &'a str) -> Cursor<'a> {
        Cursor { rest: row }
    }

    /// The next token, or none at the end of the row or at a comment.
    pub fn next(&mut self, alloc: Global) -> Result<Option<Token>, Fault> {
        self.skip_blanks();
        let token = match self.peek() {
            None | Some('#') => return Ok(None),
            Some('"') => Token::Text(self.text(alloc)?),
            Some('=') => {
                self.take();
                if self.eat('>') {
                    Token::Arrow
                } else {
                    Token::Equals
                }
            }
            Some(_) => Token::Word(self.word(alloc)?),
        };
        Ok(Some(token))
    }

    fn peek(&self) -> Option<char> {
        self.rest.chars().next()
    }

    fn take(&mut self) -> Option<char> {
        let mut chars = self.rest.chars();
        let first = chars.next();
        self.rest = chars.as_str();
        first
    }

    fn eat(&mut self, sign: char) -> bool {
        let is_there = self.peek() == Some(sign);
        if is_there {
            self.take();
        }
        is_there
    }

    fn skip_blanks(&mut self) {
        while self.peek() == Some(' ') {
            self.take();
        }
    }

    fn word(&mut self, alloc: Global) -> Result<String, AllocError> {
        let mut word = String::new(alloc);
        while let Some(sign) = self.peek() {
            if matches!(sign, ' ' | '"' | '=' | '#') {
                break;
            }
            word.push(sign)?;
            self.take();
        }
        Ok(word)
    }

    /// One or more pieces, joined by `+`.
    fn text(&mut self, alloc: Global) -> Result<String, Fault> {
        let mut text = String::new(alloc);
        loop {
            let piece = self.piece(alloc)?;
            for _ in 0..self.times(alloc)? {
                text.push_str(&piece)?;
            }
            self.skip_blanks();
            if !self.eat('+') {
                return Ok(text);
            }
            self.skip_blanks();
        }
    }

    /// The text between two quotes.
    fn piece(&mut self, alloc: Global) -> Result<String, Fault> {
        if !self.eat('"') {
            return Err(Fault::Malformed("no text stands after `+`"));
        }
        let mut piece = String::new(alloc);
        loop {
            match self.take() {
                None => return Err(Fault::Malformed("a text has no closing quote")),
                Some('"') => return Ok(piece),
                Some('\\') => piece.push(self.escaped(alloc)?)?,
                Some(sign) => piece.push(sign)?,
            }
        }
    }

    /// The number of repetitions of the piece: 1, or the number after `*`.
    fn times(&mut self, alloc: Global) -> Result<usize, Fault> {
        if !self.eat('*') {
            return Ok(1);
        }
        let mut digits = String::new(alloc);
        while let Some(sign) = self.peek() {
            if !sign.is_ascii_digit() {
                break;
            }
            digits.push(sign)?;
            self.take();
        }
        digits
            .parse()
            .map_err(|_| Fault::Malformed("no number stands after `*`"))
    }

    fn escaped(&mut self, alloc: Global) -> Result<char, Fault> {
        match self.take() {
            Some('n') => Ok('\n'),
            Some('t') => Ok('\t'),
            Some('u') => self.code_point(alloc),
            Some(sign) if matches!(sign, '"' | '\\') => Ok(sign),
            _ => Err(Fault::Malformed("unknown escape")),
        }
    }

    fn code_point(&mut self, alloc: Global) -> Result<char, Fault> {
        let fault = Fault::Malformed("not a character's number");
        let mut digits = String::new(alloc);
        if !self.eat('{') {
            return Err(fault);
        }
        while !self.eat('}') {
            digits.push(self.take().ok_or(fault)?)?;
        }
        let number = u32::from_str_radix(&digits, 16).map_err(|_| fault)?;
        char::from_u32(number).ok_or(fault)
    }
}

/// Adds the token, as it is written in a row.
pub fn push_token(line: &mut String, token: &Token) -> Result<(), AllocError> {
    match token {
        Token::Word(word) => line.push_str(word),
        Token::Text(text) => push_text(line, text),
        Token::Equals => line.push('='),
        Token::Arrow => line.push_str("=>"),
    }
}

/// Adds the text in quotes, each long run of one character as a repetition.
fn push_text(line: &mut String, text: &str) -> Result<(), AllocError> {
    let mut is_open = false;
    let mut is_first = true;
    let mut rest = text;
    while let Some(sign) = rest.chars().next() {
        let run = rest.chars().take_while(|other| *other == sign).count();
        let is_long = run >= LONG_RUN;
        if is_open && is_long {
            line.push('"')?;
        }
        if !is_first && (is_long || !is_open) {
            line.push('+')?;
        }
        if is_long || !is_open {
            line.push('"')?;
        }
        push_escaped(line, sign)?;
        if is_long {
            write!(line, "\"*{run}")?;
        }
        is_open = !is_long;
        is_first = false;
        let taken = if is_long { run } else { 1 };
        rest = rest.get(taken * sign.len_utf8()..).unwrap_or("");
    }
    if is_open {
        line.push('"')?;
    }
    if is_first {
        line.push_str("\"\"")?;
    }
    Ok(())
}

fn push_escaped(line: &mut String, sign: char) -> Result<(), AllocError> {
    match sign {
        '"' => line.push_str("\\\""),
        '\\' => line.push_str("\\\\"),
        '\n' => line.push_str("\\n"),
        '\t' => line.push_str("\\t"),
        ' '..='~' => line.push(sign),
        _ => write!(line, "\\u{{{:x}}}", u32::from(sign)),
    }
}
