// Writes a script of orders for `storm` on standard output: generate [ORDERS [POSTS [SEED]]], by default 1,000,000 orders for 20 posts, seed 1.
// Ticks and hears above all, some losses and buttons, few faults in memories and on lines, few shows. Build with `rustc -O generate.rs`.
use std::io::{self, BufWriter, Write};

// A linear congruential generator: the same seed gives the same script everywhere.
struct Random(u64);

impl Random {
    fn below(&mut self, n: u64) -> u64 {
        self.0 = self.0.wrapping_mul(6364136223846793005).wrapping_add(1442695040888963407);
        (self.0 >> 33) % n
    }
}

fn main() -> io::Result<()> {
    let mut args = std::env::args().skip(1).map(|a| a.parse::<u64>().expect("a number"));
    let orders = args.next().unwrap_or(1_000_000);
    let posts = args.next().unwrap_or(20);
    let mut random = Random(args.next().unwrap_or(1));
    let mut out = BufWriter::new(io::stdout().lock());
    let k = 3 * posts;
    write!(out, "02 {posts:02x} {:02x} {:02x}", k / 256, k % 256)?;
    for _ in 0..posts {
        write!(out, " 00 {:02x}", random.below(4))?;
    }
    writeln!(out)?;
    for _ in 0..orders {
        let post = random.below(posts);
        match random.below(100_000) {
            0..=54_999 => writeln!(out, "03 {post:02x} 01")?,
            55_000..=94_999 => writeln!(out, "03 {post:02x} 02")?,
            95_000..=97_999 => writeln!(out, "03 {post:02x} 03")?,
            98_000..=99_899 => writeln!(out, "03 {post:02x} {:02x}", 6 + random.below(2))?,
            99_900..=99_949 => writeln!(out, "03 {post:02x} 08")?,
            99_950..=99_979 => {
                write!(out, "03 {post:02x} 04")?;
                for _ in 0..16 {
                    write!(out, " {:02x}", random.below(256))?;
                }
                writeln!(out)?;
            }
            99_980..=99_989 => {
                write!(out, "03 {post:02x} 05")?;
                for _ in 0..6 {
                    write!(out, " {:02x}", random.below(256))?;
                }
                writeln!(out)?;
            }
            99_990..=99_994 => writeln!(out, "03 {post:02x} zz")?,
            _ => writeln!(out, "# a comment")?,
        }
    }
    out.flush()
}
