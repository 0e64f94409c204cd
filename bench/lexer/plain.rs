// A plain lexer of the same tokens by characters, with std alone: what `run.py` compares decl_lexer with.
use std::time::Instant;

#[derive(Debug)]
#[allow(dead_code)]
enum Kind {
    Name {
        text: String,
        raw: bool,
    },
    Word(&'static str),
    Mark(&'static str),
    Lifetime,
    Int {
        value: Option<u128>,
        suffix: String,
        decimal: bool,
    },
    Float,
    Char(char),
    Byte(u8),
    Str(String),
    ByteStr,
    CStr,
}
#[allow(dead_code)]
struct Token {
    kind: Kind,
    from: u64,
    to: u64,
}
struct Fault(u32, u64);

fn is_start(c: char) -> bool {
    c == '_' || c.is_alphabetic()
}
fn is_continue(c: char) -> bool {
    c == '_' || c.is_alphanumeric()
}
fn is_space(c: char) -> bool {
    matches!(
        c,
        '\t'..='\r' | ' ' | '\u{85}' | '\u{200E}' | '\u{200F}' | '\u{2028}' | '\u{2029}'
    )
}

const WORDS: [&str; 51] = [
    "as", "async", "await", "break", "const", "continue", "crate", "dyn", "else", "enum", "extern",
    "false", "fn", "for", "if", "impl", "in", "let", "loop", "match", "mod", "move", "mut", "pub",
    "ref", "return", "self", "Self", "static", "struct", "super", "trait", "true", "type",
    "unsafe", "use", "where", "while", "abstract", "become", "box", "do", "final", "macro",
    "override", "priv", "try", "typeof", "unsized", "virtual", "yield",
];
fn word(text: &str) -> Option<&'static str> {
    macro_rules! go { ($($w:literal)*) => { match text { $($w => Some($w),)* _ => None } } }
    let _ = WORDS;
    go!("as" "async" "await" "break" "const" "continue" "crate" "dyn" "else" "enum" "extern" "false" "fn" "for" "if" "impl" "in" "let" "loop" "match" "mod" "move" "mut" "pub" "ref" "return" "self" "Self" "static" "struct" "super" "trait" "true" "type" "unsafe" "use" "where" "while" "abstract" "become" "box" "do" "final" "macro" "override" "priv" "try" "typeof" "unsized" "virtual" "yield")
}
const MARKS: [&[&str]; 3] = [
    &["<<=", ">>=", "...", "..="],
    &[
        "::", "->", "<-", "=>", "==", "!=", "<=", ">=", "&&", "||", "+=", "-=", "*=", "/=", "%=",
        "^=", "&=", "|=", "<<", ">>", "..",
    ],
    &[
        "+", "-", "*", "/", "%", "^", "!", "&", "|", "=", "<", ">", "@", ".", ",", ";", ":", "#",
        "$", "?", "~", "(", ")", "[", "]", "{", "}",
    ],
];
fn mark(rest: &str) -> Option<&'static str> {
    let b = rest.as_bytes();
    for (k, set) in MARKS.iter().enumerate() {
        let n = 3 - k;
        if b.len() >= n {
            for m in set.iter() {
                if m.as_bytes() == &b[..n] {
                    return Some(m);
                }
            }
        }
    }
    None
}
fn take<'a>(rest: &'a str, p: impl Fn(char) -> bool) -> (&'a str, &'a str) {
    let n = rest.find(|c| !p(c)).unwrap_or(rest.len());
    rest.split_at(n)
}
fn escape(c_max: u32, uni: bool, s: &str) -> Option<(char, &str)> {
    let mut it = s.chars();
    let c = it.next()?;
    let simple = match c {
        'n' => '\n',
        'r' => '\r',
        't' => '\t',
        '\\' => '\\',
        '0' => '\0',
        '\'' => '\'',
        '"' => '"',
        'x' => {
            let v = it.next()?.to_digit(16)? * 16 + it.next()?.to_digit(16)?;
            if v > c_max {
                return None;
            }
            return Some((char::from_u32(v)?, it.as_str()));
        }
        'u' if uni => {
            let s = it.as_str().strip_prefix('{')?;
            let (d, r) = take(s, |c| c == '_' || c.is_ascii_hexdigit());
            let r = r.strip_prefix('}')?;
            if d.starts_with('_') || d.is_empty() {
                return None;
            }
            let d = d.replace('_', "");
            if d.len() > 6 {
                return None;
            }
            return Some((char::from_u32(u32::from_str_radix(&d, 16).ok()?)?, r));
        }
        _ => return None,
    };
    Some((simple, it.as_str()))
}
fn text<'a>(
    c_max: u32,
    uni: bool,
    inside: &'a str,
    base: impl Fn(&str) -> u64,
    start: u64,
) -> Result<(String, &'a str), Fault> {
    let mut value = String::new();
    let mut rest = inside;
    loop {
        let mut it = rest.chars();
        let Some(c) = it.next() else {
            return Err(Fault(4, start));
        };
        let behind = it.as_str();
        match c {
            '"' => return Ok((value, behind)),
            '\\' if behind.starts_with('\n') || behind.starts_with("\r\n") => {
                let mut r = behind;
                loop {
                    if let Some(x) = r.strip_prefix([' ', '\t', '\n']) {
                        r = x
                    } else if r.starts_with("\r\n") {
                        r = &r[2..]
                    } else {
                        break;
                    }
                }
                rest = r;
            }
            '\\' => match escape(c_max, uni, behind) {
                Some((c, r)) => {
                    value.push(c);
                    rest = r;
                }
                None => return Err(Fault(5, base(rest))),
            },
            '\r' => {
                if !behind.starts_with('\n') {
                    return Err(Fault(2, base(rest)));
                }
                rest = behind;
            }
            c => {
                value.push(c);
                rest = behind;
            }
        }
    }
}
fn raw<'a>(
    n: usize,
    inside: &'a str,
    base: impl Fn(&str) -> u64,
    start: u64,
) -> Result<(String, &'a str), Fault> {
    let mut value = String::new();
    let mut rest = inside;
    loop {
        let mut it = rest.chars();
        let Some(c) = it.next() else {
            return Err(Fault(4, start));
        };
        let behind = it.as_str();
        if c == '"' && behind.len() >= n && behind.as_bytes()[..n].iter().all(|b| *b == b'#') {
            return Ok((value, &behind[n..]));
        }
        if c == '\r' {
            if !behind.starts_with('\n') {
                return Err(Fault(2, base(rest)));
            }
        } else {
            value.push(c);
        }
        rest = behind;
    }
}
fn comment(mut r: &str) -> Option<&str> {
    let mut depth = 1;
    loop {
        let mut it = r.chars();
        let c = it.next()?;
        let b = it.as_str();
        if c == '/' && b.starts_with('*') {
            depth += 1;
            r = &b[1..];
        } else if c == '*' && b.starts_with('/') {
            depth -= 1;
            r = &b[1..];
            if depth == 0 {
                return Some(r);
            }
        } else {
            r = b
        }
    }
}
fn suffix(rest: &str) -> (&str, &str) {
    if rest.starts_with(is_start) {
        take(rest, is_continue)
    } else {
        rest.split_at(0)
    }
}
fn digits(radix: u32, base: u32, rest: &str) -> (Option<u128>, bool, bool, &str) {
    let (d, r) = take(rest, |c| c == '_' || c.is_digit(radix));
    let mut v = Some(0u128);
    let mut some = false;
    let mut other = false;
    for c in d.chars().filter(|c| *c != '_') {
        let x = c.to_digit(radix).unwrap();
        some = true;
        other |= x >= base;
        v = v.and_then(|v| v.checked_mul(base as u128)?.checked_add(x as u128));
    }
    (v, some, other, r)
}
fn exponent(rest: &str) -> Option<&str> {
    let r = rest.strip_prefix(['e', 'E'])?;
    let r = r.strip_prefix(['+', '-']).unwrap_or(r);
    let (_, some, _, r) = digits(10, 10, r);
    some.then_some(r)
}
fn number<'a>(rest: &'a str, at: u64) -> Result<(Kind, &'a str), Fault> {
    let int = |v, d, r: &'a str| {
        if r.starts_with(['e', 'E']) {
            return Err(Fault(2, at));
        }
        let (s, r) = suffix(r);
        Ok((
            Kind::Int {
                value: v,
                suffix: s.to_string(),
                decimal: d,
            },
            r,
        ))
    };
    for (p, radix, base) in [("0x", 16, 16), ("0o", 10, 8), ("0b", 10, 2)] {
        if let Some(r) = rest.strip_prefix(p) {
            let (v, some, other, r) = digits(radix, base, r);
            if !some || other {
                return Err(Fault(2, at));
            }
            return int(v, false, r);
        }
    }
    let (v, _, _, r) = digits(10, 10, rest);
    if let Some(f) = r.strip_prefix('.') {
        if !f.starts_with(|c| c == '.' || is_start(c)) {
            let (_, _, _, r) = digits(10, 10, f);
            if let Some(r) = exponent(r) {
                return Ok((Kind::Float, suffix(r).1));
            }
            if r.starts_with(['e', 'E']) {
                return Err(Fault(2, at));
            }
            return Ok((Kind::Float, suffix(r).1));
        }
    }
    if let Some(r) = exponent(r) {
        return Ok((Kind::Float, suffix(r).1));
    }
    int(v, true, r)
}
fn lex(source: &[u8]) -> Result<Vec<Token>, Fault> {
    let all = std::str::from_utf8(source).map_err(|e| Fault(1, e.valid_up_to() as u64))?;
    let base = |r: &str| (all.len() - r.len()) as u64;
    let mut rest = all.strip_prefix('\u{FEFF}').unwrap_or(all);
    let mut tokens = Vec::new();
    loop {
        let mut it = rest.chars();
        let Some(c) = it.next() else {
            return Ok(tokens);
        };
        let behind = it.as_str();
        let at = base(rest);
        if is_space(c) {
            rest = take(behind, is_space).1;
            continue;
        }
        if c == '/' && behind.starts_with('/') {
            rest = take(behind, |c| c != '\n').1;
            continue;
        }
        if c == '/' && behind.starts_with('*') {
            rest = comment(&behind[1..]).ok_or(Fault(3, at))?;
            continue;
        }
        let (kind, after) = if c.is_ascii_digit() {
            number(rest, at)?
        } else if c == '\'' {
            let mut j = behind.chars();
            let one = j.next();
            let two = j.as_str();
            if one == Some('\\') {
                let (c, r) = escape(0x7f, true, two).ok_or(Fault(5, at + 1))?;
                (Kind::Char(c), r.strip_prefix('\'').ok_or(Fault(2, at))?)
            } else if one.is_some_and(|c| !matches!(c, '\'' | '\n' | '\r' | '\t'))
                && two.starts_with('\'')
            {
                (Kind::Char(one.unwrap()), &two[1..])
            } else if behind.starts_with(is_start) {
                let (_, r) = take(behind, is_continue);
                if r.starts_with('\'') {
                    return Err(Fault(2, at));
                }
                (Kind::Lifetime, r)
            } else {
                return Err(Fault(2, at));
            }
        } else if c == '"' {
            let (v, r) = text(0x7f, true, behind, base, at)?;
            (Kind::Str(v), r)
        } else if is_start(c) {
            if c == 'b' && behind.starts_with('"') {
                let (_, r) = text(0xff, false, &behind[1..], base, at)?;
                (Kind::ByteStr, r)
            } else if c == 'c' && behind.starts_with('"') {
                let (_, r) = text(0xff, true, &behind[1..], base, at)?;
                (Kind::CStr, r)
            } else if c == 'r' && take(behind, |c| c == '#').1.starts_with('"') {
                let (h, r) = take(behind, |c| c == '#');
                if h.len() > 255 {
                    return Err(Fault(2, at));
                }
                let (v, r) = raw(h.len(), &r[1..], base, at)?;
                (Kind::Str(v), r)
            } else if c == 'b' && behind.starts_with('\'') && behind.len() > 3 {
                (Kind::Byte(behind.as_bytes()[1]), &behind[3..])
            } else if c == 'r' && behind.starts_with('#') && behind[1..].starts_with(is_start) {
                let (n, r) = take(&behind[1..], is_continue);
                (
                    Kind::Name {
                        text: n.to_string(),
                        raw: true,
                    },
                    r,
                )
            } else {
                let (n, r) = take(rest, is_continue);
                (
                    match word(n) {
                        Some(w) => Kind::Word(w),
                        None if n == "_" => Kind::Mark("_"),
                        None => Kind::Name {
                            text: n.to_string(),
                            raw: false,
                        },
                    },
                    r,
                )
            }
        } else {
            let m = mark(rest).ok_or(Fault(2, at))?;
            (Kind::Mark(m), &rest[m.len()..])
        };
        tokens.push(Token {
            kind,
            from: at,
            to: base(after),
        });
        rest = after;
    }
}
fn main() {
    for path in std::env::args().skip(1) {
        let bytes = std::fs::read(&path).unwrap();
        let start = Instant::now();
        let (count, fault) = match lex(&bytes) {
            Ok(t) => (t.len(), 0),
            Err(f) => (0, f.1),
        };
        println!(
            "{count} tokens in {} ms ({fault})",
            start.elapsed().as_millis()
        );
    }
}
