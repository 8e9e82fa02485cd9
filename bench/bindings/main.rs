//! Times the crate `ip_wire_c` beside the call in C and the standard library. `bench/bindings.py` runs it.

use ip_wire_c::Frame;
use std::env;
use std::hint::black_box;
use std::net::{IpAddr, SocketAddr};
use std::time::Instant;

const ROUNDS: usize = 50;
const REPEATS: usize = 8;
const TEXTS: [&str; 2] = ["192.0.2.1", "2001:db8:1234:5678:9abc:def0:1234:5678"];

extern "C" {
    fn lk_read_frame(ptr: *const u8, len: usize, frame: *mut [u64; 32]) -> i32;
}

/// A name, and what is timed: it returns the sum of ports and payload lengths, or 0.
type Job<'a> = (String, Box<dyn FnMut() -> usize + 'a>);

fn job<'a, T: Copy>(name: &str, inputs: &'a [T], mut call: impl FnMut(T) -> usize + 'a) -> Job<'a> {
    (name.to_owned(), Box::new(move || inputs.iter().map(|&input| call(black_box(input))).sum()))
}

fn sum_of(frame: &Frame) -> usize {
    let port = |end: Option<SocketAddr>| end.map_or(0, |end| usize::from(end.port()));
    port(frame.src()) + port(frame.dst()) + frame.payload_len()
}

/// The frames, each after its length, which has 4 bytes.
fn frames(mut data: &[u8]) -> Vec<&[u8]> {
    let mut found = Vec::new();
    while let Some((len, rest)) = data.split_first_chunk::<4>() {
        let (frame, next) = rest.split_at(u32::from_le_bytes(*len) as usize);
        found.push(frame);
        data = next;
    }
    found
}

fn jobs<'a>(frames: &'a [&'a [u8]], texts: &'a [Vec<&'a str>]) -> Vec<Job<'a>> {
    let (mut frame, mut fields) = (Frame::parse(&[]), [0; 32]);
    let mut found = vec![
        job("`Frame::parse`", frames, |bytes| sum_of(&Frame::parse(bytes))),
        job("`Frame::parse_into`", frames, move |bytes| {
            Frame::parse_into(bytes, &mut frame);
            sum_of(&frame)
        }),
        job("`lk_read_frame`, nothing of the struct", frames, move |bytes| {
            // SAFETY: there are `len` bytes at `ptr`, and the struct is shorter than `fields`.
            unsafe { lk_read_frame(bytes.as_ptr(), bytes.len(), &mut fields) };
            0
        }),
    ];
    for texts in texts {
        let text = texts[0];
        found.push(job(&format!("`parse_addr` {text}"), texts, |text| {
            black_box(ip_wire_c::parse_addr(text).is_err()).into()
        }));
        found.push(job(&format!("std `parse` {text}"), texts, |text| {
            black_box(text.parse::<IpAddr>().is_err()).into()
        }));
    }
    found
}

fn main() {
    let data = std::fs::read(env::var("BENCH_FRAMES").unwrap()).unwrap();
    let wanted: usize = env::var("BENCH_SUM").unwrap().parse().unwrap();
    let (frames, texts) = (frames(&data), TEXTS.map(|text| vec![text; 256]));
    let mut jobs = jobs(&frames, &texts);
    for _ in 0..ROUNDS {
        for (name, call) in &mut jobs {
            let begun = Instant::now();
            for _ in 0..REPEATS {
                let sum = call();
                assert!(sum == 0 || sum == wanted, "{name} finds {sum}, and not {wanted}");
            }
            println!("{name}\t{}", begun.elapsed().as_nanos() as f64 / (REPEATS * 256) as f64);
        }
    }
}
