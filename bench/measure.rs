// Runs a program on a file and prints its seconds and its peak memory in KiB: measure PROGRAM INPUT OUTPUT. Build with `rustc -O measure.rs`.
use std::fs::File;
use std::process::{Command, Stdio};
use std::time::Instant;

#[repr(C)]
struct Usage {
    times: [i64; 4],
    max_rss: i64,
    rest: [i64; 13],
}

unsafe extern "C" {
    fn wait4(pid: i32, status: *mut i32, options: i32, usage: *mut Usage) -> i32;
}

fn main() {
    let args: Vec<String> = std::env::args().collect();
    let [_, program, input, output] = args.as_slice() else {
        panic!("measure PROGRAM INPUT OUTPUT");
    };
    let start = Instant::now();
    let child = Command::new(program)
        .stdin(Stdio::from(File::open(input).expect("the input")))
        .stdout(Stdio::from(File::create(output).expect("the output")))
        .spawn()
        .expect("the program");
    let mut status = 0;
    let mut usage = Usage { times: [0; 4], max_rss: 0, rest: [0; 13] };
    let pid = unsafe { wait4(child.id() as i32, &mut status, 0, &mut usage) };
    assert!(pid > 0 && status == 0, "the program failed");
    println!("{:.3} {}", start.elapsed().as_secs_f64(), usage.max_rss);
}
