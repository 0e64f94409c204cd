//! The pieces of the same columns in plain Rust, without proofs, in the same order as the program of run.py.
//!
//! Takes the least number of heads as its word, and prints for each kind of column and for n, 2n and 4n heads: the kind, the
//! heads, the pieces that heads have, the gaps, whether a piece is missing, a sum of the spans, and the microseconds.

/// `high * 2^128 + low`, so that the order of the pair is that of the numbers; the two free ends lie outside of every number.
#[derive(Clone, Copy, PartialEq, Eq, PartialOrd, Ord, Debug)]
pub struct Num {
    high: i32,
    low: u128,
}

const FREE_LOW: Num = Num { high: -9, low: 0 };
const FREE_HIGH: Num = Num { high: 9, low: 0 };

impl Num {
    fn after(self) -> Num {
        let (low, carry) = self.low.overflowing_add(1);
        Num { high: self.high + carry as i32, low }
    }
    fn before(self) -> Num {
        let (low, borrow) = self.low.overflowing_sub(1);
        Num { high: self.high - borrow as i32, low }
    }
}

/// The numbers of a type: one range, or two, the second wholly above the first.
#[derive(Clone, Copy, Debug)]
pub struct Whole {
    first: (Num, Num),
    second: Option<(Num, Num)>,
}

impl Whole {
    fn last(&self) -> Num {
        self.second.map_or(self.first.1, |s| s.1)
    }
    /// The next number of the type, `FREE_HIGH` behind the last one.
    fn after(&self, n: Num) -> Num {
        if n == self.last() || n == FREE_HIGH {
            return FREE_HIGH;
        }
        match self.second {
            Some(s) if n == self.first.1 => s.0,
            _ => n.after(),
        }
    }
    /// The number of the type before `n`.
    fn before(&self, n: Num) -> Num {
        match self.second {
            Some(s) if n == s.0 => self.first.1,
            _ => n.before(),
        }
    }
}

#[derive(Clone, Copy, PartialEq, Eq, PartialOrd, Ord, Debug)]
pub enum Ctor<'a> {
    Variant(u32),
    Flag(bool),
    Numbers(Num, Num),
    Text(&'a str),
    Fixed(u64),
    Longer(u64, u64),
}

#[derive(Clone, Copy, Debug)]
pub enum Set {
    Variants { count: u32, later: bool },
    Flags,
    Numbers(Whole),
    Texts,
    Rows(Option<u64>),
}

/// What is asked of types.
pub trait PatCx {
    type Ty: Copy;
    fn set(&self, ty: Self::Ty) -> Set;
    fn variant_empty(&self, ty: Self::Ty, k: u32) -> bool;
    fn item_empty(&self, ty: Self::Ty) -> bool;
}

/// `ctors` are the pieces that a head has and that have a value, ascending. `missing`: some piece with a value is in no
/// head. `of[k]`: head k has the pieces from `.0` to before `.1`. `gaps`: the missing ranges and lengths, ascending.
pub struct Present<'a> {
    pub ctors: Vec<Ctor<'a>>,
    pub missing: bool,
    pub of: Vec<(usize, usize)>,
    pub gaps: Vec<Ctor<'a>>,
}

fn index<T: Ord>(sorted: &[T], x: &T) -> usize {
    sorted.partition_point(|y| y < x)
}

pub fn present<'a, C: PatCx>(cx: &C, ty: C::Ty, sure: bool, heads: &[Ctor<'a>]) -> Present<'a> {
    match cx.set(ty) {
        Set::Flags => {
            let t = heads.iter().any(|h| *h == Ctor::Flag(true));
            let f = heads.iter().any(|h| *h == Ctor::Flag(false));
            let mut ctors = vec![];
            if f {
                ctors.push(Ctor::Flag(false));
            }
            if t {
                ctors.push(Ctor::Flag(true));
            }
            let of = heads.iter().map(|h| if f && *h == Ctor::Flag(true) { (1, 2) } else { (0, 1) }).collect();
            Present { ctors, missing: !(t && f), of, gaps: vec![] }
        }
        Set::Variants { count, later } => variants(cx, ty, sure, count, later, heads),
        Set::Texts => {
            let mut ctors: Vec<Ctor<'a>> = heads.to_vec();
            ctors.sort();
            ctors.dedup();
            let of = heads.iter().map(|h| { let i = index(&ctors, h); (i, i + 1) }).collect();
            Present { ctors, missing: true, of, gaps: vec![] }
        }
        Set::Numbers(whole) => numbers(&whole, heads),
        Set::Rows(Some(n)) => array(n, heads),
        Set::Rows(None) => lengths(!(sure && cx.item_empty(ty)), heads),
    }
}

fn variants<'a, C: PatCx>(cx: &C, ty: C::Ty, sure: bool, count: u32, later: bool, heads: &[Ctor<'a>]) -> Present<'a> {
    let mut ks: Vec<u32> = heads.iter().map(|h| if let Ctor::Variant(k) = h { *k } else { unreachable!() }).collect();
    ks.sort();
    ks.dedup();
    let mut missing = later;
    if !missing {
        let mut i = 0;
        for k in 0..count {
            if i < ks.len() && ks[i] == k {
                i += 1;
            } else if !sure || !cx.variant_empty(ty, k) {
                missing = true;
                break;
            }
        }
    }
    if sure {
        ks.retain(|k| !cx.variant_empty(ty, *k));
    }
    let of = heads
        .iter()
        .map(|h| {
            let Ctor::Variant(k) = h else { unreachable!() };
            let i = index(&ks, k);
            (i, i + (ks.get(i) == Some(k)) as usize)
        })
        .collect();
    Present { ctors: ks.into_iter().map(Ctor::Variant).collect(), missing, of, gaps: vec![] }
}

fn array<'a>(n: u64, heads: &[Ctor<'a>]) -> Present<'a> {
    let (mut front, mut back, mut fixed) = (0, 0, false);
    for h in heads {
        match h {
            Ctor::Longer(f, b) => {
                front = front.max(*f);
                back = back.max(*b);
            }
            _ => fixed = true,
        }
    }
    let c = if fixed || front + back >= n { Ctor::Fixed(n) } else { Ctor::Longer(front, back) };
    if heads.is_empty() {
        return Present { ctors: vec![], missing: true, of: vec![], gaps: vec![c] };
    }
    Present { ctors: vec![c], missing: false, of: vec![(0, 1); heads.len()], gaps: vec![] }
}

/// Cuts the numbers of the type where a head begins and behind where one ends.
fn numbers<'a>(whole: &Whole, heads: &[Ctor<'a>]) -> Present<'a> {
    let mut cuts: Vec<Num> = Vec::with_capacity(2 * heads.len() + 2);
    cuts.push(whole.first.0);
    if let Some(s) = whole.second {
        cuts.push(s.0);
    }
    for h in heads {
        let Ctor::Numbers(lo, hi) = h else { unreachable!() };
        cuts.push(*lo);
        let next = whole.after(*hi);
        if next != FREE_HIGH {
            cuts.push(next);
        }
    }
    cuts.sort();
    cuts.dedup();
    let n = cuts.len();
    // how many heads begin at a cut, less those that ended there
    let mut rise = vec![0i32; n + 1];
    let mut of: Vec<(usize, usize)> = Vec::with_capacity(heads.len());
    for h in heads {
        let Ctor::Numbers(lo, hi) = h else { unreachable!() };
        let next = whole.after(*hi);
        let (a, b) = (index(&cuts, lo), if next == FREE_HIGH { n } else { index(&cuts, &next) });
        rise[a] += 1;
        rise[b] -= 1;
        of.push((a, b));
    }
    let (mut ctors, mut gaps, mut at) = (vec![], vec![], Vec::with_capacity(n + 1));
    let mut held = 0;
    for i in 0..n {
        at.push(ctors.len());
        held += rise[i];
        let c = Ctor::Numbers(cuts[i], if i + 1 < n { whole.before(cuts[i + 1]) } else { whole.last() });
        if held > 0 { ctors.push(c) } else { gaps.push(c) }
    }
    at.push(ctors.len());
    for o in of.iter_mut() {
        *o = (at[o.0], at[o.1]);
    }
    Present { ctors, missing: !gaps.is_empty(), of, gaps }
}

/// The lengths of a slice: all fixed ones up to the longest that matters, then all longer ones.
fn lengths<'a>(items: bool, heads: &[Ctor<'a>]) -> Present<'a> {
    let (mut front, mut back, mut top) = (0u64, 0u64, 0u64);
    for h in heads {
        match h {
            Ctor::Fixed(n) => top = top.max(n + 1),
            Ctor::Longer(f, b) => {
                front = front.max(*f);
                back = back.max(*b);
            }
            _ => unreachable!(),
        }
    }
    let top = top.max(front + back) as usize;
    let mut rise = vec![0i32; top + 2];
    let mut of: Vec<(usize, usize)> = vec![];
    for h in heads {
        let (a, b) = match h {
            Ctor::Fixed(n) => (*n as usize, *n as usize + 1),
            Ctor::Longer(f, b) => ((f + b) as usize, top + 1),
            _ => unreachable!(),
        };
        rise[a] += 1;
        rise[b] -= 1;
        of.push((a, b));
    }
    let (mut ctors, mut gaps, mut at) = (vec![], vec![], vec![]);
    let mut held = 0;
    for n in 0..=top {
        at.push(ctors.len());
        held += rise[n];
        if n > 0 && !items {
            continue;
        }
        let c = if n < top { Ctor::Fixed(n as u64) } else { Ctor::Longer(top as u64 - back, back) };
        if held > 0 { ctors.push(c) } else { gaps.push(c) }
    }
    at.push(ctors.len());
    for o in of.iter_mut() {
        *o = (at[o.0], at[o.1]);
    }
    Present { ctors, missing: !gaps.is_empty(), of, gaps }
}

/// The types of the columns, and an enum of so many variants.
pub struct Wide {
    variants: u32,
}

#[derive(Clone, Copy, Debug)]
pub enum WideTy {
    Flag,
    Byte,
    Size,
    Signed,
    Most,
    Long,
    Letter,
    Text,
    Choice,
    Slice,
    NoItems,
    MostItems,
}

fn at(n: u128) -> Num {
    Num { high: 0, low: n }
}

fn below(n: u128) -> Num {
    Num { high: if n == 0 { 0 } else { -1 }, low: 0u128.wrapping_sub(n) }
}

fn one(low: Num, high: Num) -> Set {
    Set::Numbers(Whole { first: (low, high), second: None })
}

impl PatCx for Wide {
    type Ty = WideTy;
    fn set(&self, ty: WideTy) -> Set {
        match ty {
            WideTy::Flag => Set::Flags,
            WideTy::Byte => one(at(0), at(255)),
            WideTy::Size => one(at(0), FREE_HIGH),
            WideTy::Signed => one(FREE_LOW, FREE_HIGH),
            WideTy::Most => one(at(0), at(u128::MAX)),
            WideTy::Long => one(below(1 << 127), at((1 << 127) - 1)),
            WideTy::Letter => Set::Numbers(Whole { first: (at(0), at(0xd7ff)), second: Some((at(0xe000), at(0x10ffff))) }),
            WideTy::Text => Set::Texts,
            WideTy::Choice => Set::Variants { count: self.variants, later: false },
            WideTy::Slice => Set::Rows(None),
            WideTy::NoItems => Set::Rows(Some(0)),
            WideTy::MostItems => Set::Rows(Some(4_294_967_295)),
        }
    }
    fn variant_empty(&self, _ty: WideTy, _k: u32) -> bool {
        false
    }
    fn item_empty(&self, _ty: WideTy) -> bool {
        false
    }
}

const MOST: u64 = 257;
const KINDS: u64 = 26;
const MANY: u64 = 17;

fn next(seed: &mut u64) -> u64 {
    *seed = seed.wrapping_mul(6364136223846793005).wrapping_add(1442695040888963407);
    *seed >> 24
}

fn type_of(kind: u64) -> WideTy {
    match kind {
        0 => WideTy::Flag,
        1 => WideTy::Byte,
        2..=6 => WideTy::Size,
        7 => WideTy::Most,
        8 => WideTy::Long,
        9 => WideTy::Size,
        10 => WideTy::Signed,
        11 => WideTy::Letter,
        12..=15 => WideTy::Text,
        16..=19 => WideTy::Choice,
        20..=22 => WideTy::Slice,
        23 => WideTy::NoItems,
        _ => WideTy::MostItems,
    }
}

fn random(seed: &mut u64, most: u64) -> (Num, Num) {
    let one = next(seed) % most;
    let other = next(seed) % most;
    (at(one.min(other) as u128), at(one.max(other) as u128))
}

fn ends(kind: u64, i: u64, count: u64, seed: &mut u64) -> (Num, Num) {
    let rest = count - i;
    let more = |n: u64| at(n as u128);
    match kind {
        1 => random(seed, 256),
        2 => random(seed, u64::MAX),
        3 => (more(5), more(9)),
        4 => (more(i), more(count + rest)),
        5 => (more(2 * i), more(2 * i + 1)),
        6 => (more(rest), more(rest)),
        7 if i % 2 == 0 => (at(0), more(i)),
        7 => (at(u128::MAX - i as u128), at(u128::MAX)),
        8 if i % 2 == 0 => (below(1 << 127), below((1 << 127) - i as u128)),
        8 => (at((1 << 127) - 1 - i as u128), at((1 << 127) - 1)),
        9 => (more(i), FREE_HIGH),
        10 if i % 2 == 0 => (FREE_LOW, below(i as u128)),
        10 => (more(i), FREE_HIGH),
        _ => (at(0xd7ff - (i % 1000) as u128), at(0xe000 + (i % 777) as u128)),
    }
}

fn head<'a>(kind: u64, i: u64, count: u64, seed: &mut u64, texts: &'a [String]) -> Ctor<'a> {
    let rest = count - i;
    match kind {
        0 => Ctor::Flag(i % 2 == 0),
        1..=11 => {
            let (low, high) = ends(kind, i, count, seed);
            Ctor::Numbers(low, high)
        }
        12..=15 => Ctor::Text(&texts[i as usize % texts.len()]),
        16 => Ctor::Variant((i % 1_048_576) as u32),
        17 => Ctor::Variant((i % 3) as u32),
        18 => Ctor::Variant(7),
        19 => Ctor::Variant((rest % 1_048_576) as u32),
        20 => Ctor::Fixed(7),
        21 => Ctor::Longer(i % MOST, 0),
        22 => Ctor::Fixed(rest % MOST),
        23 => Ctor::Fixed(0),
        24 => Ctor::Longer(i % MOST, rest % MOST),
        _ => Ctor::Fixed(4_294_967_295),
    }
}

fn digits(mut n: u64) -> String {
    let mut text = String::new();
    for _ in 0..16 {
        text.push((b'0' + (n % 10) as u8) as char);
        n /= 10;
    }
    text
}

fn texts(kind: u64, count: u64) -> Vec<String> {
    let mut seed = count;
    match kind {
        12 => (0..count).map(|_| digits(next(&mut seed))).collect(),
        13 => vec![digits(7)],
        14 => (0..count).map(|i| digits(count - i)).collect(),
        15 => (0..MOST).map(|i| "a".repeat(i as usize)).collect(),
        _ => vec![],
    }
}

#[repr(C)]
struct Time {
    seconds: i64,
    nanos: i64,
}

unsafe extern "C" {
    fn clock_gettime(clock: i32, time: *mut Time) -> i32;
}

/// The processor time of this thread, in microseconds.
fn cpu() -> i64 {
    let mut time = Time { seconds: 0, nanos: 0 };
    // 3 is CLOCK_THREAD_CPUTIME_ID
    unsafe { clock_gettime(3, &mut time) };
    time.seconds * 1_000_000 + time.nanos / 1000
}

fn run(kind: u64, count: u64) {
    let texts = texts(kind, count);
    let (many, times) = if kind == MANY { (3, 20_000) } else { (count, 1) };
    let mut seed = count;
    let heads: Vec<Ctor> = (0..many).map(|i| head(kind, i, many, &mut seed, &texts)).collect();
    let variants = if kind == MANY { count as u32 + 1 } else { 1_048_576 };
    let cx = Wide { variants };
    let ty = type_of(kind);
    let start = cpu();
    for _ in 1..times {
        std::hint::black_box(present(&cx, ty, true, std::hint::black_box(&heads)));
    }
    let found = present(&cx, ty, true, &heads);
    let took = cpu() - start;
    let ends = found.of.iter().fold(0u64, |sum, o| {
        sum.wrapping_mul(3).wrapping_add(o.0 as u64).wrapping_mul(3).wrapping_add(o.1 as u64)
    });
    println!("{kind} {count} {} {} {} {ends} {took}", found.ctors.len(), found.gaps.len(), found.missing);
}

fn main() {
    let least: u64 = std::env::args().nth(1).map_or(250_000, |word| word.parse().expect("a number"));
    for kind in 0..KINDS {
        // the first run touches the memory that the others take; its line comes again, and the later one counts
        for count in [4 * least, least, 2 * least, 4 * least] {
            run(kind, count);
        }
    }
}
