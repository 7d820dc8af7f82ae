//! The credentials of one Digest request, made again and again.

use md5::{Digest, Md5};
use sha2::Sha256;
use std::hint::black_box;

const URI: &[u8] = b"/dir/index.html?page=7";
const CLIENT_NONCE: &[u8] = b"f2/wE4q74E6zIJEtWaHKaf5wv/H5QzzpXusqGemxURZJ";

struct Terms {
    algorithm: &'static [u8],
    realm: &'static [u8],
    nonce: &'static [u8],
    opaque: &'static [u8],
}

struct Login {
    user: &'static [u8],
    password: &'static [u8],
}

/// The digest in lower-case hexadecimal digits.
fn hex_of<H: Digest>(message: &[u8]) -> Vec<u8> {
    let mut text = Vec::new();
    for &byte in H::digest(message).iter() {
        text.push(b"0123456789abcdef"[usize::from(byte >> 4)]);
        text.push(b"0123456789abcdef"[usize::from(byte & 15)]);
    }
    text
}

fn push_named(out: &mut Vec<u8>, name: &[u8], value: &[u8]) {
    out.extend_from_slice(name);
    out.extend_from_slice(b"=\"");
    for &b in value {
        if b == b'"' || b == b'\\' {
            out.push(b'\\');
        }
        out.push(b);
    }
    out.push(b'"');
}

fn respond<H: Digest>(terms: &Terms, login: &Login, count: u32) -> Vec<u8> {
    let digits = format!("{count:08x}");
    let digits = digits.as_bytes();
    let a1 = hex_of::<H>(&[login.user, terms.realm, login.password].join(&b':'));
    let a2 = hex_of::<H>(&[b"GET", URI].join(&b':'));
    let last = [&a1, terms.nonce, digits, CLIENT_NONCE, b"auth", &a2].join(&b':');
    let mut text = b"Digest ".to_vec();
    push_named(&mut text, b"username", login.user);
    push_named(&mut text, b", realm", terms.realm);
    push_named(&mut text, b", nonce", terms.nonce);
    push_named(&mut text, b", uri", URI);
    text.extend_from_slice(b", algorithm=");
    text.extend_from_slice(terms.algorithm);
    push_named(&mut text, b", response", &hex_of::<H>(&last));
    push_named(&mut text, b", opaque", terms.opaque);
    text.extend_from_slice(b", qop=auth, nc=");
    text.extend_from_slice(digits);
    push_named(&mut text, b", cnonce", CLIENT_NONCE);
    text
}

fn made<H: Digest>(algorithm: &'static [u8], len: usize, times: u32) -> u32 {
    let terms = Terms {
        algorithm,
        realm: b"http-auth@example.org",
        nonce: b"7ypf/xlj9XXwfDPEoM4URrv/xwf94BcCAzFZH4GiTo0v",
        opaque: b"FQhe/qaU925kfnzjCev0ciny7QMkPqMAFRtzCUYo5tdS",
    };
    let login = Login {
        user: b"Mufasa",
        password: b"Circle of Life",
    };
    let mut made = 0;
    for _ in 0..times {
        let text = respond::<H>(black_box(&terms), black_box(&login), black_box(1));
        if black_box(text).len() == len {
            made += 1;
        }
    }
    made
}

pub fn run_md5(times: u32) -> u32 {
    made::<Md5>(b"MD5", 332, times)
}

pub fn run_sha256(times: u32) -> u32 {
    made::<Sha256>(b"SHA-256", 368, times)
}
