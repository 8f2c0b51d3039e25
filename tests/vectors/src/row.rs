//! Rows: a call with its arguments, and its answer.
use crate::fault::Fault;
use crate::token::{Cursor, Token, push_token};
use std::alloc::{AllocError, Global};
use std::fmt::Display;
use std::str::FromStr;

/// The answer of a call, as it is written in a row.
#[derive(Drop, PartialEq, Eq)]
pub struct Answer {
    tokens: Vec<Token>,
}

impl Answer {
    pub fn new(alloc: Global) -> Answer {
        Answer {
            tokens: Vec::new(alloc),
        }
    }

    /// The answer that is one word.
    pub fn of_word(alloc: Global, word: &str) -> Result<Answer, AllocError> {
        let mut answer = Answer::new(alloc);
        answer.word(word)?;
        Ok(answer)
    }

    /// The answer that is one text.
    pub fn of_text(alloc: Global, text: &str) -> Result<Answer, AllocError> {
        let mut answer = Answer::new(alloc);
        answer.text(text)?;
        Ok(answer)
    }

    /// Adds a word, a number or a truth value.
    pub fn word<T: Display + Drop>(&mut self, word: T) -> Result<(), AllocError> {
        let alloc = *self.tokens.allocator();
        self.tokens.push(Token::Word(word.to_string(alloc)?))?;
        Ok(())
    }

    pub fn text(&mut self, text: &str) -> Result<(), AllocError> {
        let alloc = *self.tokens.allocator();
        self.tokens
            .push(Token::Text(String::from_str(alloc, text)?))?;
        Ok(())
    }

    /// Adds `some` and the text, or `none`.
    pub fn option(&mut self, text: Option<&str>) -> Result<(), AllocError> {
        match text {
            Some(text) => {
                self.word("some")?;
                self.text(text)
            }
            None => self.word("none"),
        }
    }

    /// The answer as it is written in a row.
    pub fn line(&self, alloc: Global) -> Result<String, AllocError> {
        let mut line = String::new(alloc);
        for token in &self.tokens {
            if !line.is_empty() {
                line.push(' ')?;
            }
            push_token(&mut line, token)?;
        }
        Ok(line)
    }
}

/// A call with its arguments, and its answer.
#[derive(Drop)]
pub struct Row {
    /// Whether the call acts on the value of the rows above it.
    pub is_indented: bool,
    pub call: String,
    pub arguments: Vec<Token>,
    pub answer: Answer,
}

impl Row {
    /// Reads `CALL ARGUMENT.. => ANSWER..`.
    pub fn read(alloc: Global, line: &str) -> Result<Row, Fault> {
        let mut cursor = Cursor::new(line);
        let Some(Token::Word(call)) = cursor.next(alloc)? else {
            return Err(Fault::Malformed("a row begins with the name of a call"));
        };
        let mut arguments = Vec::new(alloc);
        loop {
            match cursor.next(alloc)? {
                None => return Err(Fault::Malformed("no `=>` stands in the row")),
                Some(Token::Arrow) => break,
                Some(token) => arguments.push(token)?,
            }
        }
        let mut answer = Answer::new(alloc);
        while let Some(token) = cursor.next(alloc)? {
            answer.tokens.push(token)?;
        }
        if answer.tokens.is_empty() {
            return Err(Fault::Malformed("no answer stands after `=>`"));
        }
        Ok(Row {
            is_indented: line.starts_with(' '),
            call,
            arguments,
            answer,
        })
    }
}

/// The only argument, a text.
pub fn one_text(arguments: &[Token]) -> Result<&str, Fault> {
    match arguments {
        [Token::Text(text)] => Ok(text),
        _ => Err(Fault::Arguments),
    }
}

/// The only argument, a number or a truth value.
pub fn one_word<T: FromStr>(arguments: &[Token]) -> Result<T, Fault>
where
    T::Err: Drop,
{
    match arguments {
        [token] => word_of(token),
        _ => Err(Fault::Arguments),
    }
}

/// The number or truth value of the token.
pub fn word_of<T: FromStr>(token: &Token) -> Result<T, Fault>
where
    T::Err: Drop,
{
    let Token::Word(word) = token else {
        return Err(Fault::Arguments);
    };
    match word.parse::<T>() {
        Ok(value) => Ok(value),
        Err(_) => Err(Fault::Arguments),
    }
}
