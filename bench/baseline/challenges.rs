//! Readings of one long field of challenges.

// A reader's caller would look at all of these; this one looks at `bad_at` alone.
#![allow(dead_code)]

use std::hint::black_box;

const PIECE: &[u8] =
    b"Digest realm=\"the north, wing\", nonce=\"5f2d9a7c41e0b83d6\", algorithm=SHA-256, qop=\"auth\", stale=false, opaque=\"k\\\"9\", Basic realm=\"lobby\", Negotiate, ";

pub struct Param {
    pub name: Vec<u8>,
    pub value: Vec<u8>,
}

pub enum Body {
    Bare,
    Token68(Vec<u8>),
    Params(Vec<Param>),
}

pub struct Challenge {
    pub scheme: Vec<u8>,
    pub body: Body,
}

pub struct FieldRead {
    pub challenges: Vec<Challenge>,
    pub bad_at: Option<usize>,
}

enum Form {
    Head(Challenge),
    Parameter(Param),
}

fn is_tchar(b: u8) -> bool {
    b.is_ascii_alphanumeric() || b"!#$%&'*+-.^_`|~".contains(&b)
}

fn is_blank(b: u8) -> bool {
    b == b' ' || b == b'\t'
}

fn piece_len(text: &[u8]) -> usize {
    let (mut quoted, mut escaped) = (false, false);
    for (i, &b) in text.iter().enumerate() {
        if escaped {
            escaped = false;
        } else if quoted {
            escaped = b == b'\\';
            quoted = b != b'"';
        } else if b == b',' {
            return i;
        } else {
            quoted = b == b'"';
        }
    }
    text.len()
}

fn skip_blanks(text: &[u8]) -> &[u8] {
    let n = text.iter().take_while(|b| is_blank(**b)).count();
    &text[n..]
}

fn trim_end(text: &[u8]) -> &[u8] {
    let n = text.iter().rev().take_while(|b| is_blank(**b)).count();
    &text[..text.len() - n]
}

fn token_len(text: &[u8]) -> usize {
    text.iter().take_while(|b| is_tchar(**b)).count()
}

fn is_token68(text: &[u8]) -> bool {
    let is_digit = |b: &u8| b.is_ascii_alphanumeric() || b"-._~+/".contains(b);
    let n = text.iter().take_while(|b| is_digit(b)).count();
    n > 0 && text[n..].iter().all(|b| *b == b'=')
}

/// The value of a quoted string that is the whole text.
fn unquoted(text: &[u8]) -> Option<Vec<u8>> {
    let mut value = Vec::new();
    let mut rest = text.iter().skip(1);
    while let Some(&b) = rest.next() {
        match b {
            b'"' => return rest.next().is_none().then_some(value),
            b'\\' => value.push(*rest.next()?),
            _ => value.push(b),
        }
    }
    None
}

/// A name, an equals sign and a value; blanks may stand round the sign.
fn param_of(text: &[u8]) -> Option<Param> {
    let n = token_len(text);
    let rest = skip_blanks(&text[n..]);
    if n == 0 || rest.first() != Some(&b'=') {
        return None;
    }
    let rest = skip_blanks(&rest[1..]);
    let value = if rest.first() == Some(&b'"') {
        unquoted(rest)?
    } else if !rest.is_empty() && token_len(rest) == rest.len() {
        rest.to_vec()
    } else {
        return None;
    };
    Some(Param {
        name: text[..n].to_ascii_lowercase(),
        value,
    })
}

fn form_of(text: &[u8]) -> Option<Form> {
    if let Some(param) = param_of(text) {
        return Some(Form::Parameter(param));
    }
    let n = token_len(text);
    if n == 0 {
        return None;
    }
    let scheme = text[..n].to_ascii_lowercase();
    let spaces = text[n..].iter().take_while(|b| **b == b' ').count();
    let argument = &text[n + spaces..];
    let body = if argument.is_empty() {
        Body::Bare
    } else if spaces == 0 {
        return None;
    } else if is_token68(argument) {
        Body::Token68(argument.to_vec())
    } else {
        Body::Params(vec![param_of(argument)?])
    };
    Some(Form::Head(Challenge { scheme, body }))
}

/// Adds a parameter to the challenge begun last. Of a name given twice the first counts.
fn join(challenges: &mut [Challenge], param: Param) -> bool {
    let Some(challenge) = challenges.last_mut() else {
        return false;
    };
    match &mut challenge.body {
        Body::Token68(_) => return false,
        Body::Bare => challenge.body = Body::Params(vec![param]),
        Body::Params(params) => {
            if params.iter().all(|p| p.name != param.name) {
                params.push(param);
            }
        }
    }
    true
}

pub fn read_field(field: &[u8]) -> FieldRead {
    let mut challenges = Vec::new();
    let mut at = 0;
    while at <= field.len() {
        let n = piece_len(&field[at..]);
        let piece = skip_blanks(&field[at..at + n]);
        let begin = at + n - piece.len();
        let piece = trim_end(piece);
        at += n + 1;
        if piece.is_empty() {
            continue;
        }
        let good = match form_of(piece) {
            Some(Form::Head(challenge)) => {
                challenges.push(challenge);
                true
            }
            Some(Form::Parameter(param)) => join(&mut challenges, param),
            None => false,
        };
        if !good {
            return FieldRead {
                challenges,
                bad_at: Some(begin),
            };
        }
    }
    FieldRead {
        challenges,
        bad_at: None,
    }
}

pub fn run(pieces: usize, times: u32) -> u32 {
    let field = PIECE.repeat(pieces);
    let mut whole = 0;
    for _ in 0..times {
        let read = black_box(read_field(black_box(&field)));
        if read.bad_at.is_none() {
            whole += 1;
        }
    }
    whole
}
