//! One reply with a chunked body, read again and again from one text, whole.

use std::hint::black_box;

const LIMIT: usize = 1 << 20;

const HEAD: &[u8] = b"HTTP/1.1 401 Unauthorized\r\nDate: Mon, 07 Oct 2024 09:30:00 GMT\r\nServer: Apache/2.4.62 (Debian)\r\nWWW-Authenticate: Digest realm=\"the north, wing\", nonce=\"5f2d9a7c41e0b83d6\", algorithm=SHA-256, qop=\"auth\"\r\nWWW-Authenticate: Basic realm=\"lobby\"\r\nContent-Type: text/html; charset=utf-8\r\nTransfer-Encoding: chunked\r\nKeep-Alive: timeout=5, max=100\r\nConnection: Keep-Alive\r\n\r\n";

/// A chunk of 80 bytes.
const CHUNK: &[u8] =
    b"50\r\nThis page answers to those who are known here alone; others find nothing on it.\n\r\n";

const CHUNKS: usize = 700;

#[allow(dead_code)]
pub struct Reply {
    pub code: u16,
    pub stays: bool,
    pub body: u32,
    pub fields: Vec<Vec<u8>>,
}

struct Head<'a> {
    minor: u8,
    code: u16,
    fields: Vec<(&'a [u8], &'a [u8])>,
}

fn is_tchar(b: u8) -> bool {
    b.is_ascii_alphanumeric() || b"!#$%&'*+-.^_`|~".contains(&b)
}

fn trim(text: &[u8]) -> &[u8] {
    let is_blank = |b: &&u8| matches!(b, b' ' | b'\t');
    let front = text.iter().take_while(is_blank).count();
    let text = &text[front..];
    let back = text.iter().rev().take_while(is_blank).count();
    &text[..text.len() - back]
}

/// The line at the front, without its end, and what is behind it.
fn line(text: &[u8]) -> Option<(&[u8], &[u8])> {
    let n = text.iter().position(|b| *b == b'\n')?;
    let line = text[..n].strip_suffix(b"\r").unwrap_or(&text[..n]);
    Some((line, &text[n + 1..]))
}

fn field(line: &[u8]) -> Option<(&[u8], &[u8])> {
    let colon = line.iter().position(|b| *b == b':')?;
    let (name, value) = (&line[..colon], trim(&line[colon + 1..]));
    let is_text = |b: &u8| *b == b'\t' || (*b >= b' ' && *b != 0x7f);
    let fits = !name.is_empty() && name.iter().all(|b| is_tchar(*b)) && value.iter().all(is_text);
    fits.then_some((name, value))
}

fn head(text: &[u8]) -> Option<(Head<'_>, &[u8])> {
    let (status, mut rest) = line(text)?;
    let minor = match status.get(..9)? {
        b"HTTP/1.1 " => 1,
        b"HTTP/1.0 " => 0,
        _ => return None,
    };
    let code = std::str::from_utf8(status.get(9..12)?).ok()?.parse().ok()?;
    let mut fields = Vec::new();
    loop {
        let (text, next) = line(rest)?;
        rest = next;
        if text.is_empty() {
            return Some((
                Head {
                    minor,
                    code,
                    fields,
                },
                rest,
            ));
        }
        fields.push(field(text)?);
    }
}

fn values<'a>(head: &'a Head, name: &'a [u8]) -> impl Iterator<Item = &'a [u8]> {
    let same = move |field: &&(&[u8], &[u8])| field.0.eq_ignore_ascii_case(name);
    head.fields.iter().filter(same).map(|field| field.1)
}

fn has_word(head: &Head, name: &[u8], word: &[u8]) -> bool {
    values(head, name).any(|value| {
        value
            .split(|b| *b == b',')
            .any(|item| trim(item).eq_ignore_ascii_case(word))
    })
}

/// The size of a chunked body's data.
fn chunked(text: &[u8]) -> Option<usize> {
    let (mut rest, mut size) = (text, 0);
    loop {
        let (digits, next) = line(rest)?;
        let digits = digits.split(|b| *b == b';').next()?;
        let more = usize::from_str_radix(std::str::from_utf8(trim(digits)).ok()?, 16).ok()?;
        rest = next;
        if more == 0 {
            break;
        }
        let (end, next) = line(rest.get(more..)?)?;
        if !end.is_empty() {
            return None;
        }
        rest = next;
        size += more;
    }
    loop {
        let (trailer, next) = line(rest)?;
        if trailer.is_empty() {
            return (text.len() - next.len() <= LIMIT).then_some(size);
        }
        rest = next;
    }
}

fn reply(text: &[u8]) -> Option<Reply> {
    let (head, rest) = head(text)?;
    if !has_word(&head, b"Transfer-Encoding", b"chunked") {
        return None;
    }
    let body = chunked(rest)? as u32;
    let name: &[u8] = match head.code {
        401 => b"WWW-Authenticate",
        407 => b"Proxy-Authenticate",
        _ => b"",
    };
    Some(Reply {
        code: head.code,
        stays: head.minor == 1 && !has_word(&head, b"Connection", b"close"),
        body,
        fields: values(&head, name).map(<[u8]>::to_vec).collect(),
    })
}

/// Reads the text so often. It keeps none of the bytes, as the kernel's reader of it.
pub fn run(times: u32) -> u32 {
    let text = [HEAD, &CHUNK.repeat(CHUNKS), b"0\r\n\r\n"].concat();
    let mut whole = 0;
    for _ in 0..times {
        if black_box(reply(black_box(&text))).is_some() {
            whole += 1;
        }
    }
    whole
}

/// Reads a reply of so many chunks of 1,024 bytes and a shorter one so often.
pub fn run_long(chunks: usize, times: u32) -> u32 {
    let chunk = |line: &[u8], size: usize| [line, &b"a".repeat(size), b"\r\n"].concat();
    let front = chunk(b"3F9\r\n", 1017).repeat(chunks);
    let text = [HEAD, &front, &chunk(b"3F4\r\n", 1012), b"0\r\n\r\n"].concat();
    let mut whole = 0;
    for _ in 0..times {
        if black_box(reply(black_box(&text))).is_some() {
            whole += 1;
        }
    }
    whole
}
