//! Commands as they come: an array of bulk strings, or a line of words.

/// A bulk string has so many bytes at most, a command so many words and bytes, and a line so many bytes.
const BULK: usize = 64 << 20;
const WORDS: i64 = 1 << 20;
const COMMAND: usize = 128 << 20;
const LINE: usize = 1 << 16;

/// Something and the input behind it, or nothing if it isn't whole.
type Parsed<'a, T> = Result<Option<(T, &'a [u8])>, &'static str>;

/// A word as a number.
pub fn number<T: std::str::FromStr>(word: &[u8]) -> Option<T> {
    std::str::from_utf8(word).ok()?.parse().ok()
}

fn line(input: &[u8]) -> Parsed<'_, &[u8]> {
    match input.iter().position(|it| *it == b'\n') {
        Some(end) => Ok(Some((input[..end].strip_suffix(b"\r").unwrap_or(&input[..end]), &input[end + 1..]))),
        None if input.len() > LINE => Err("Protocol error: too big inline request"),
        None => Ok(None),
    }
}

/// The words of the next command. An empty line has none.
pub fn parse(input: &[u8]) -> Parsed<'_, Vec<&[u8]>> {
    let Some((first, mut rest)) = line(input)? else { return Ok(None) };
    let Some(count) = first.strip_prefix(b"*") else {
        return Ok(Some((first.split(u8::is_ascii_whitespace).filter(|it| !it.is_empty()).collect(), rest)));
    };
    let count = number(count).filter(|it| *it <= WORDS).ok_or("Protocol error: invalid multibulk length")?;
    let mut words = Vec::new();
    for _ in 0..count {
        let Some((head, behind)) = line(rest)? else { return Ok(None) };
        let length = number(head.strip_prefix(b"$").ok_or("Protocol error: expected '$'")?);
        let length = length.filter(|it| *it <= BULK).ok_or("Protocol error: invalid bulk length")?;
        if input.len() - behind.len() + length > COMMAND {
            return Err("Protocol error: too big command");
        }
        if behind.len() < length + 2 {
            return Ok(None);
        }
        words.push(&behind[..length]);
        rest = &behind[length + 2..];
    }
    Ok(Some((words, rest)))
}
