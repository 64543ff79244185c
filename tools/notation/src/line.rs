//! One line of a text: its tokens, and what is read from them.

use crate::quoted;
use crate::words::{self, Words};

#[derive(Clone, Debug, PartialEq, Eq)]
enum Token {
    /// In lower case.
    Word(String),
    Mark(char),
    /// A word after `#`: a field, or a number in place of a word.
    Hash(String),
    Text(Vec<u8>),
}

impl std::fmt::Display for Token {
    fn fmt(&self, f: &mut std::fmt::Formatter) -> std::fmt::Result {
        match self {
            Token::Word(w) => write!(f, "`{w}`"),
            Token::Mark(c) => write!(f, "`{c}`"),
            Token::Hash(w) => write!(f, "`#{w}`"),
            Token::Text(_) => write!(f, "a text in quotes"),
        }
    }
}

/// A number with its sign.
#[derive(Clone, Copy, Debug, PartialEq, Eq)]
pub struct Number {
    pub negative: bool,
    pub size: u64,
}

impl Number {
    /// In 64 bits.
    pub fn value(self) -> u64 {
        if self.negative {
            self.size.wrapping_neg()
        } else {
            self.size
        }
    }
}

pub struct Line {
    tokens: Vec<Token>,
    at: usize,
}

impl Line {
    /// A `;` outside of quotes begins a comment.
    pub fn new(text: &str) -> Result<Line, String> {
        let mut tokens = Vec::new();
        let mut rest = text.trim_start();
        while let Some(first) = rest.chars().next().filter(|c| *c != ';') {
            let (token, length) = match first {
                '"' => quoted::read(rest).map(|(bytes, n)| (Token::Text(bytes), n))?,
                '#' => (Token::Hash(word_of(&rest[1..])), 1 + word_of(&rest[1..]).len()),
                ',' | ':' | '[' | ']' | '+' | '-' | '*' => (Token::Mark(first), 1),
                c if is_word(c) => (Token::Word(word_of(rest)), word_of(rest).len()),
                c => return Err(format!("`{c}` means nothing here")),
            };
            tokens.push(token);
            rest = rest[length..].trim_start();
        }
        Ok(Line { tokens, at: 0 })
    }

    pub fn is_empty(&self) -> bool {
        self.tokens.is_empty()
    }

    /// Whether the line begins with a word and a colon, as instructions do.
    pub fn is_insn(&self) -> bool {
        matches!(self.tokens[..], [Token::Word(_), Token::Mark(':'), ..])
    }

    /// Whether a word and a colon are next, as before brackets.
    pub fn is_segment(&self) -> bool {
        matches!(self.tokens[self.at..], [Token::Word(_), Token::Mark(':'), ..])
    }

    fn peek(&self) -> Option<&Token> {
        self.tokens.get(self.at)
    }

    /// The next token in words.
    pub fn found(&self) -> String {
        self.peek().map_or("the end of the line".to_string(), |t| t.to_string())
    }

    fn wanted(&self, what: &str) -> String {
        format!("{what} is wanted, not {}", self.found())
    }

    /// The next word, if a word is next.
    pub fn peek_word(&self) -> Option<&str> {
        match self.peek() {
            Some(Token::Word(w)) => Some(w),
            _ => None,
        }
    }

    pub fn word(&mut self, what: &str) -> Result<String, String> {
        let word = self.peek_word().map(str::to_string).ok_or_else(|| self.wanted(what))?;
        self.at += 1;
        Ok(word)
    }

    /// Passes the word, if it is next.
    pub fn takes_word(&mut self, word: &str) -> bool {
        let is_next = self.peek_word() == Some(word);
        self.at += usize::from(is_next);
        is_next
    }

    /// Passes the mark, if it is next.
    pub fn takes(&mut self, mark: char) -> bool {
        let is_next = self.peek() == Some(&Token::Mark(mark));
        self.at += usize::from(is_next);
        is_next
    }

    pub fn mark(&mut self, mark: char) -> Result<(), String> {
        if self.takes(mark) {
            Ok(())
        } else {
            Err(self.wanted(&format!("`{mark}`")))
        }
    }

    pub fn is_next(&self, mark: char) -> bool {
        self.peek() == Some(&Token::Mark(mark))
    }

    /// Whether nothing but fields is left.
    pub fn is_done(&self) -> bool {
        matches!(self.peek(), None | Some(Token::Hash(_)))
    }

    pub fn hash(&mut self) -> Option<String> {
        match self.peek() {
            Some(Token::Hash(w)) => {
                let word = w.clone();
                self.at += 1;
                Some(word)
            }
            _ => None,
        }
    }

    pub fn end(&self) -> Result<(), String> {
        match self.peek() {
            None => Ok(()),
            Some(_) => Err(format!("the line should end before {}", self.found())),
        }
    }

    /// Hexadecimal, with or without 0x.
    pub fn address(&mut self) -> Result<u64, String> {
        let word = self.word("an address")?;
        let digits = word.strip_prefix("0x").unwrap_or(&word);
        u64::from_str_radix(digits, 16).map_err(|_| format!("`{word}` is no address: up to sixteen hexadecimal digits"))
    }

    /// One decimal digit, or 0x and hexadecimal digits, with a minus in front or not.
    pub fn number(&mut self) -> Result<Number, String> {
        let negative = self.takes('-');
        let word = self.word("a number")?;
        let digit = word.parse().ok().filter(|_| word.len() == 1);
        let size = match (digit, word.strip_prefix("0x")) {
            (Some(size), _) => size,
            (_, Some(hex)) => u64::from_str_radix(hex, 16).map_err(|_| format!("`{word}` is no number of 64 bits"))?,
            _ if word.bytes().all(|b| b.is_ascii_hexdigit()) => {
                return Err(format!("is `{word}` decimal or hexadecimal? Write 0x and hexadecimal digits"))
            }
            _ => return Err(format!("`{word}` is no number")),
        };
        if negative && size > 1 << 63 {
            return Err(format!("`-{word}` is no number of 64 bits"));
        }
        Ok(Number { negative, size })
    }

    /// A decimal number up to the given one.
    pub fn decimal(&mut self, most: u64) -> Result<u64, String> {
        let word = self.word("a decimal number")?;
        let number = word.parse().ok().filter(|n| *n <= most);
        number.ok_or_else(|| format!("`{word}` is no decimal number from 0 to {most}"))
    }

    /// One of the words, or `#` and a number up to the given one.
    pub fn choice(&mut self, words: Words, what: &str, most: u64) -> Result<u64, String> {
        if let Some(number) = self.hash_number(most)? {
            return Ok(number);
        }
        let word = self.word(what)?;
        let known: Vec<&str> = words.iter().filter(|w| !w.is_empty()).copied().collect();
        words::find(words, &word).map(u64::from).ok_or_else(|| format!("`{word}` is not {what}: {}", known.join(" ")))
    }

    /// A register's name, or `#` and a number up to the given one.
    pub fn register(&mut self, most: u64) -> Result<u64, String> {
        if let Some(number) = self.hash_number(most)? {
            return Ok(number);
        }
        let word = self.word("a register")?;
        words::register(&word).map(u64::from).ok_or_else(|| format!("`{word}` is no register"))
    }

    /// `#` and a number up to the given one, if `#` is next.
    pub fn hash_number(&mut self, most: u64) -> Result<Option<u64>, String> {
        let Some(word) = self.hash() else { return Ok(None) };
        let number = word.parse().ok().filter(|n| *n <= most);
        number.map(Some).ok_or_else(|| format!("`#{word}` is no number from #0 to #{most}"))
    }

    pub fn text(&mut self) -> Result<Vec<u8>, String> {
        match self.peek() {
            Some(Token::Text(bytes)) => {
                let bytes = bytes.clone();
                self.at += 1;
                Ok(bytes)
            }
            _ => Err(self.wanted("a text in quotes")),
        }
    }
}

fn is_word(c: char) -> bool {
    c.is_ascii_alphanumeric() || c == '_' || c == '?'
}

fn word_of(rest: &str) -> String {
    rest.chars().take_while(|c| is_word(*c)).map(|c| c.to_ascii_lowercase()).collect()
}
