//! How long a plain copy of so many bytes into a new vector takes, in seconds.
fn main() {
    let size: usize = std::env::args().nth(1).unwrap().parse().unwrap();
    let bytes = vec![1u8; size];
    let begin = std::time::Instant::now();
    let mut copy: Vec<u8> = Vec::with_capacity(size);
    copy.extend_from_slice(&bytes);
    let seconds = begin.elapsed().as_secs_f64();
    println!("{seconds}");
    std::hint::black_box(copy);
}
