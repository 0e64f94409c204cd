// A configuration as it is read from a file: lines, settings, and what is done with each.
use Setting::*;
use Level::{Debug, Error, Info};

#[derive(Debug, Clone, Copy, PartialEq, Eq)]
pub enum Level {
    Debug,
    Info,
    Warning,
    Error,
}

#[derive(Debug)]
pub enum Setting<'a> {
    Name(&'a str),
    Port(u16),
    Log { level: Level, target: Option<&'a str> },
    Limits { connections: u32, timeout: u32 },
    Tls(Option<Keys<'a>>),
}

#[derive(Debug)]
pub struct Keys<'a> {
    public: &'a str,
    private: &'a str,
}

#[derive(Debug)]
pub enum Line<'a> {
    Blank,
    Comment(&'a str),
    Section([u8; 2]),
    Set { key: &'a str, value: Value<'a> },
}

#[derive(Debug)]
pub enum Value<'a> {
    Flag(bool),
    Number(i64),
    Text(&'a str),
    List(Vec<Value<'a>>),
}

pub fn verbosity(level: Level) -> u8 {
    match level {
        Debug => 3,
        Info => 2,
        Error => 0,
    }
}

pub fn port_class(port: u16) -> &'static str {
    match port {
        0 => "none",
        1..=1023 => "well known",
        1024..=49151 => "registered",
        49152..=65535 => "dynamic",
    }
}

pub fn describe<'a>(setting: &Setting<'a>) -> &'a str {
    match setting {
        Name("") => "unnamed",
        Name(name) => name,
        Port(80 | 8080) => "http",
        Port(443) => "https",
        Port(..=1023) => "system port",
        Log { level: Debug | Info, target: None } => "quiet log",
        Log { target: Some("stderr" | "stdout"), .. } => "standard stream",
        Log { .. } => "log",
        Limits { connections: 0, .. } | Limits { timeout: 0, .. } => "no limit",
        Limits { connections: 1..=64, timeout: 1..=30 } => "small",
        Limits { connections: 1.., timeout: 1.. } => "large",
        Tls(None) => "plain",
        Tls(Some(Keys { public: "", .. } | Keys { private: "", .. })) => "incomplete keys",
        Tls(Some(Keys { public, private })) if public == private => "same key twice",
        Tls(Some(_)) => "tls",
    }
}

pub fn weight(line: Line<'_>) -> u32 {
    match line {
        Line::Blank | Line::Comment(_) => 0,
        Line::Section([b'[', b']']) => 1,
        Line::Section([b'[', _]) => 2,
        Line::Set { key: "include", value: Value::Text(path) } => 100,
        Line::Set { key: "include", value: Value::List(paths) } if paths.is_empty() => 0,
        Line::Set { value: Value::Flag(true | false), .. } => 3,
        Line::Set { value: Value::Number(..0 | 0..), .. } => 4,
        Line::Set { key: _, value: Value::Text(_) | Value::List(_) | Value::Number(_) } => 5,
    }
}

pub fn first_two(values: &[Value<'_>]) -> u8 {
    match values {
        [Value::Flag(true), Value::Flag(true), ..] => 2,
        [Value::Flag(true), ..] | [_, Value::Flag(true), ..] => 1,
        [] | [_] | [_, _, ..] => 0,
    }
}
