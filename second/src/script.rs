//! The call script's lines (the script format's "Input"): words, numbers and bytes.

/// The longest line without its newline, and the longest bytes argument.
pub const LONGEST_LINE: usize = 8191;
pub const LONGEST_BYTES: usize = 2048;

/// One argument of a command.
#[derive(Clone, PartialEq, Eq, Debug)]
pub enum Argument {
    Number(u64),
    Bytes(Vec<u8>),
    /// One of the areas: 0 is `s`, 1 is `v` and 2 is `l`.
    Area(usize),
}

/// A line of the script.
#[derive(Clone, PartialEq, Eq, Debug)]
pub enum Line {
    /// An empty line or a comment.
    Nothing,
    Command(&'static str, Vec<Argument>),
    Bad,
}

/// Every command with its arguments: `a` an area, `n` a number, `=` bytes.
pub const COMMANDS: [(&str, &str); 27] = [
    ("give", "nnn"),
    ("size", "nnn"),
    ("fit", ""),
    ("poke", "an="),
    ("copy", "aa"),
    ("show", "ann"),
    ("digest", ""),
    ("format", ""),
    ("mount", ""),
    ("lookup", "n="),
    ("list", "nn="),
    ("stat", "nn"),
    ("read", "nnn="),
    ("create", "nn=n"),
    ("mkdir", "nn=n"),
    ("rmfile", "nn="),
    ("rmdir", "nn="),
    ("rename", "nn=n="),
    ("write", "nnn="),
    ("setlen", "nnn"),
    ("forder", "n="),
    ("push", "n"),
    ("fsync", "nnn"),
    ("cut", ""),
    ("take", "n="),
    ("renew", "n"),
    ("record", "n="),
];

/// The lines of a script; the last one may lack its newline.
pub fn lines(script: &[u8]) -> impl Iterator<Item = &[u8]> {
    let whole = script.strip_suffix(b"\n").unwrap_or(script);
    let none = script.is_empty();
    whole.split(|&byte| byte == b'\n').filter(move |_| !none)
}

/// Reads one line without its newline.
pub fn parse(line: &[u8]) -> Line {
    if line.len() > LONGEST_LINE {
        return Line::Bad;
    }
    if line.is_empty() || line[0] == b'#' {
        return Line::Nothing;
    }
    let words: Vec<&[u8]> = line.split(|&byte| byte == b' ').collect();
    let Some((name, shape)) = COMMANDS.iter().find(|(name, _)| name.as_bytes() == words[0]) else {
        return Line::Bad;
    };
    if shape.len() != words.len() - 1 {
        return Line::Bad;
    }
    let arguments = shape.chars().zip(&words[1..]).map(|(letter, word)| argument(letter, word));
    match arguments.collect::<Option<Vec<Argument>>>() {
        Some(arguments) => Line::Command(name, arguments),
        None => Line::Bad,
    }
}

fn argument(letter: char, word: &[u8]) -> Option<Argument> {
    match letter {
        'a' => [b"s", b"v", b"l"].iter().position(|name| *name == word).map(Argument::Area),
        'n' => number(word).map(Argument::Number),
        _ => hexadecimal(word).map(Argument::Bytes),
    }
}

/// Decimal digits within 64 bits, with no needless leading zero.
fn number(word: &[u8]) -> Option<u64> {
    let digits = !word.is_empty() && word.iter().all(u8::is_ascii_digit);
    let needless = word.len() > 1 && word[0] == b'0';
    if !digits || needless {
        return None;
    }
    std::str::from_utf8(word).ok()?.parse().ok()
}

/// `=` and an even number of lower-case hexadecimal digits.
fn hexadecimal(word: &[u8]) -> Option<Vec<u8>> {
    let digits = word.strip_prefix(b"=")?;
    if digits.len() % 2 == 1 || digits.len() / 2 > LONGEST_BYTES {
        return None;
    }
    digits.chunks(2).map(|pair| Some(digit(pair[0])? * 16 + digit(pair[1])?)).collect()
}

fn digit(byte: u8) -> Option<u8> {
    match byte {
        b'0'..=b'9' => Some(byte - b'0'),
        b'a'..=b'f' => Some(byte - b'a' + 10),
        _ => None,
    }
}

/// Bytes as the script writes them.
pub fn to_hexadecimal(bytes: &[u8]) -> String {
    let mut text = String::from("=");
    for byte in bytes {
        text.push_str(&format!("{byte:02x}"));
    }
    text
}
