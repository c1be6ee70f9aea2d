// The same job as `storm` in plain Rust, for comparison: reads settings and orders on standard input, plays all posts and lines, prints what
// `storm` prints. Build with `rustc -O peer.rs`.
use std::io::{self, Read, Write};

#[derive(Clone, Copy, Default)]
struct Memory {
    number: u16,
    heard: u16,
    turn: u16,
    wait: u16,
    moves: u32,
    since: u32,
}

#[derive(Clone, Copy, Default)]
struct Post {
    memory: Memory,
    button: bool,
}

#[derive(Clone, Copy, Default)]
struct Line {
    frame: [u8; 6],
    lost: bool,
}

struct Settings {
    n: usize,
    k: u16,
    turns: Vec<u16>,
}

fn crc(bytes: &[u8]) -> u16 {
    let mut sum = 0xffffu16;
    for &b in bytes {
        sum ^= (b as u16) << 8;
        for _ in 0..8 {
            sum = if sum & 0x8000 != 0 { (sum << 1) ^ 0x1021 } else { sum << 1 };
        }
    }
    sum
}

fn frame_of(post: usize, number: u16) -> [u8; 6] {
    let [a, b] = number.to_be_bytes();
    let head = [1, post as u8, a, b];
    let [c, d] = crc(&head).to_be_bytes();
    [1, post as u8, a, b, c, d]
}

// The bytes of a line, and whether it is whole.
fn read_line(text: &[u8], bytes: &mut Vec<u8>) -> bool {
    bytes.clear();
    let text = match text {
        [front @ .., b'\r'] => front,
        _ => text,
    };
    let mut high: Option<u8> = None;
    for &c in text {
        let digit = match c {
            b'0'..=b'9' => c - b'0',
            b'a'..=b'f' => c - b'a' + 10,
            b'A'..=b'F' => c - b'A' + 10,
            b' ' | b'\t' if high.is_none() => continue,
            b'#' if high.is_none() => return true,
            _ => return false,
        };
        match high.take() {
            None => high = Some(digit),
            Some(h) => bytes.push(16 * h + digit),
        }
    }
    high.is_none()
}

fn word(b: &[u8], at: usize) -> u16 {
    u16::from_be_bytes([b[at], b[at + 1]])
}

fn count(b: &[u8], at: usize) -> u32 {
    u32::from_be_bytes([b[at], b[at + 1], b[at + 2], b[at + 3]])
}

fn read_settings(b: &[u8], whole: bool) -> Result<Settings, u8> {
    if b.is_empty() || b[0] != 2 {
        return Err(1);
    }
    if b.len() < 2 {
        return Err(1);
    }
    let n = b[1] as usize;
    if !(2..=21).contains(&n) {
        return Err(2);
    }
    if b.len() < 4 {
        return Err(1);
    }
    let k = word(b, 2);
    if (k as usize) < 3 * n {
        return Err(2);
    }
    let mut turns = Vec::new();
    for i in 0..n {
        if b.len() < 6 + 2 * i {
            return Err(1);
        }
        let t = word(b, 4 + 2 * i);
        if t > 1000 {
            return Err(2);
        }
        turns.push(t);
    }
    if b.len() > 4 + 2 * n || !whole {
        return Err(1);
    }
    Ok(Settings { n, k, turns })
}

// An order's fault, or none.
fn order_fault(b: &[u8], whole: bool, n: usize) -> Option<u8> {
    if b.is_empty() || b[0] != 3 || b.len() < 2 {
        return Some(1);
    }
    if b[1] as usize >= n {
        return Some(2);
    }
    if b.len() < 3 || !(1..=8).contains(&b[2]) {
        return Some(1);
    }
    let length = match b[2] {
        4 => 19,
        5 => 9,
        _ => 3,
    };
    if b.len() != length || !whole { Some(1) } else { None }
}

struct Play {
    s: Settings,
    posts: Vec<Post>,
    lines: Vec<Line>,
    numbers: Vec<u16>,
    holders: usize,
    moves: u64,
    healed: Option<u64>,
}

impl Play {
    fn norm(&self, x: u16) -> u16 {
        if x < self.s.k { x } else { 0 }
    }

    fn may(&self, j: usize) -> bool {
        match j {
            0 => self.numbers[0] == self.numbers[self.numbers.len() - 1],
            _ => self.numbers[j] != self.numbers[j - 1],
        }
    }

    fn near(&self, j: usize) -> usize {
        let next = if j + 1 < self.numbers.len() { j + 1 } else { 0 };
        self.may(j) as usize + self.may(next) as usize
    }

    fn shift(&mut self, j: usize, value: u16) {
        let before = self.near(j);
        self.numbers[j] = value;
        self.holders = self.holders + self.near(j) - before;
    }

    fn note(&mut self, j: usize, value: u16) {
        if self.numbers[j] == value {
            return;
        }
        self.shift(j, value);
        self.moves += 1;
        if self.healed.is_none() && self.holders == 1 {
            self.healed = Some(self.moves);
        }
    }

    fn anew(&mut self) {
        self.moves = 0;
        self.healed = if self.holders == 1 { Some(0) } else { None };
    }

    fn guard(i: usize, heard: u16, number: u16) -> bool {
        if i == 0 { number == heard } else { number != heard }
    }

    fn has_token(&self, i: usize) -> bool {
        let m = &self.posts[i].memory;
        Self::guard(i, self.norm(m.heard), self.norm(m.number))
    }

    fn time(&self, i: usize) -> u16 {
        let p = &self.posts[i];
        if p.button && p.memory.turn <= 1000 { p.memory.turn } else { 0 }
    }

    fn tick(&mut self, i: usize) {
        let may = self.has_token(i);
        let time = self.time(i);
        let mut m = self.posts[i].memory;
        m.number = self.norm(m.number);
        m.heard = self.norm(m.heard);
        m.wait = m.wait.min(3);
        m.since = m.since.saturating_add(1);
        let mut moved = false;
        if may && time > 0 {
            m.turn -= 1;
        } else if may {
            m.number = match i {
                0 => if m.number + 1 < self.s.k { m.number + 1 } else { 0 },
                _ => m.heard,
            };
            m.moves = m.moves.saturating_add(1);
            m.since = 0;
            m.turn = 0;
            moved = true;
        }
        let sends = moved || m.wait == 0;
        m.wait = if sends { 3 } else { m.wait - 1 };
        self.posts[i].memory = m;
        self.note(3 * i, m.number);
        if sends {
            self.lines[i] = Line { frame: frame_of(i, m.number), lost: false };
            self.note(3 * i + 1, m.number);
        }
    }

    fn hear(&mut self, i: usize) {
        let before = if i == 0 { self.s.n - 1 } else { i - 1 };
        let Line { frame, lost } = self.lines[before];
        let number = word(&frame, 2);
        if lost || frame[0] != 1 || frame[1] as usize != before || number >= self.s.k || word(&frame, 4) != crc(&frame[..4]) {
            return;
        }
        let had = self.has_token(i);
        let own = self.norm(self.posts[i].memory.number);
        let m = &mut self.posts[i].memory;
        m.number = own;
        m.heard = number;
        if !had && Self::guard(i, number, own) {
            m.turn = self.s.turns[i];
        }
        self.note(3 * before + 2, number);
    }

    fn memory(&mut self, i: usize, b: &[u8]) {
        self.posts[i].memory = Memory {
            number: word(b, 0),
            heard: word(b, 2),
            turn: word(b, 4),
            wait: word(b, 6),
            moves: count(b, 8),
            since: count(b, 12),
        };
        let before = if i == 0 { self.s.n - 1 } else { i - 1 };
        self.shift(3 * i, self.norm(word(b, 0)));
        self.shift(3 * before + 2, self.norm(word(b, 2)));
        self.anew();
    }

    fn show(&self, p: usize, out: &mut Vec<u8>) -> io::Result<()> {
        write!(out, "show: ")?;
        for i in 0..self.s.n {
            let bar = if i == 0 { "" } else { " | " };
            write!(out, "{bar}{} {} {}", self.numbers[3 * i], self.numbers[3 * i + 1], self.numbers[3 * i + 2])?;
        }
        write!(out, "; word: ")?;
        let mut comma = "";
        for j in 0..self.numbers.len() {
            if self.may(j) {
                let part = ["post", "frame", "end"][j % 3];
                write!(out, "{comma}{part} {}", j / 3)?;
                comma = ", ";
            }
        }
        write!(out, "; speaks: ")?;
        let mut comma = "";
        for i in 0..self.s.n {
            if self.has_token(i) && self.time(i) > 0 {
                write!(out, "{comma}post {i}")?;
                comma = ", ";
            }
        }
        if comma.is_empty() {
            write!(out, "-")?;
        }
        let m = &self.posts[p].memory;
        writeln!(out, "; post {p}: {} goings on, {} ticks since", m.moves, m.since)
    }

    fn obey(&mut self, b: &[u8], out: &mut Vec<u8>) -> io::Result<()> {
        let i = b[1] as usize;
        match b[2] {
            1 => self.tick(i),
            2 => self.hear(i),
            3 => self.lines[i].lost = true,
            4 => self.memory(i, &b[3..]),
            5 => {
                let mut frame = [0; 6];
                frame.copy_from_slice(&b[3..9]);
                self.lines[i] = Line { frame, lost: false };
                self.shift(3 * i + 1, self.norm(word(&frame, 2)));
                self.anew();
            }
            6 => self.posts[i].button = true,
            7 => self.posts[i].button = false,
            _ => self.show(i, out)?,
        }
        Ok(())
    }
}

fn run() -> io::Result<Result<(), u8>> {
    let mut script = Vec::new();
    io::stdin().lock().read_to_end(&mut script)?;
    let mut bytes = Vec::new();
    let mut out = Vec::new();
    let mut play: Option<Play> = None;
    for (at, text) in script.split(|&b| b == b'\n').enumerate() {
        let whole = read_line(text, &mut bytes);
        if whole && bytes.is_empty() {
            continue;
        }
        match &mut play {
            None => {
                let s = match read_settings(&bytes, whole) {
                    Ok(s) => s,
                    Err(fault) => return Ok(Err(fault)),
                };
                let n = s.n;
                let lines = (0..n).map(|i| Line { frame: frame_of(i, 0), lost: false }).collect();
                play = Some(Play { s, posts: vec![Post::default(); n], lines, numbers: vec![0; 3 * n], holders: 1, moves: 0, healed: Some(0) });
            }
            Some(p) => match order_fault(&bytes, whole, p.s.n) {
                Some(fault) => writeln!(out, "line {}: fault {fault}", at + 1)?,
                None => p.obey(&bytes, &mut out)?,
            },
        }
    }
    let Some(p) = play else { return Ok(Err(1)) };
    let m = 3 * p.s.n as u64;
    let bound = 3 * m * (m - 1) / 2;
    match p.healed {
        Some(c) => writeln!(out, "healed after {c} goings on, at most {bound}")?,
        None => writeln!(out, "not healed after {} goings on, at most {bound}", p.moves)?,
    }
    io::stdout().write_all(&out)?;
    Ok(Ok(()))
}

fn main() {
    match run() {
        Ok(Ok(())) => {}
        Ok(Err(fault)) => {
            eprintln!("storm: fault {fault}");
            std::process::exit(1);
        }
        Err(error) => {
            eprintln!("storm: {error}");
            std::process::exit(1);
        }
    }
}
