// Times the built hash and plain Rust's, turn by turn, and prints the ratio of their best and of their median times.
use std::hint::black_box;
use std::time::Instant;

const START: u64 = 0xcbf2_9ce4_8422_2325;
const PRIME: u64 = 0x100_0000_01b3;
const BYTES: usize = 1_000_000;
const KEYS: u64 = 100_000;
const TURNS: usize = 401;

extern "C" {
    fn register_hash_bytes(s: *const u8, len: usize) -> u64;
    fn register_hash_key(salt: u64, id: u64) -> u64;
}

fn built_bytes(s: &[u8]) -> u64 {
    unsafe { register_hash_bytes(s.as_ptr(), s.len()) }
}

fn built_key(salt: u64, id: u64) -> u64 {
    unsafe { register_hash_key(salt, id) }
}

#[inline(never)]
extern "C" fn plain_slice(s: *const u8, len: usize) -> u64 {
    fold(unsafe { std::slice::from_raw_parts(s, len) })
}

#[inline(always)]
fn fold(s: &[u8]) -> u64 {
    s.iter().fold(START, |h, &b| (h ^ b as u64).wrapping_mul(PRIME))
}

fn plain_bytes(s: &[u8]) -> u64 {
    plain_slice(s.as_ptr(), s.len())
}

#[inline(never)]
extern "C" fn plain_key(salt: u64, id: u64) -> u64 {
    let mut gathered = [0u8; 16];
    gathered[..8].copy_from_slice(&salt.to_le_bytes());
    gathered[8..].copy_from_slice(&id.to_le_bytes());
    fold(&gathered)
}

fn keys(hash: impl Fn(u64, u64) -> u64) -> u64 {
    (0..KEYS).fold(0, |sum: u64, i| sum.wrapping_add(hash(black_box(7), black_box(i))))
}

fn timed(work: impl Fn() -> u64) -> (u64, u64) {
    let began = Instant::now();
    let value = black_box(work());
    (began.elapsed().as_nanos() as u64, value)
}

// Both in turn, the order changing with each turn, so that neither always goes first.
fn compare(name: &str, built: impl Fn() -> u64, plain: impl Fn() -> u64) {
    let mut times = (Vec::new(), Vec::new());
    for turn in 0..TURNS {
        let (a, b) = if turn % 2 == 0 {
            let a = timed(&built);
            (a, timed(&plain))
        } else {
            let b = timed(&plain);
            (timed(&built), b)
        };
        assert_eq!(a.1, b.1, "{name}: the two hashes differ");
        times.0.push(a.0);
        times.1.push(b.0);
    }
    times.0.sort_unstable();
    times.1.sort_unstable();
    let ratio = |k: usize| times.0[k] as f64 / times.1[k] as f64;
    println!(
        "{name}: built {} us, plain Rust {} us, ratio of the best {:.3}, of the medians {:.3}",
        times.0[0] / 1000,
        times.1[0] / 1000,
        ratio(0),
        ratio(TURNS / 2)
    );
}

fn main() {
    let data: Vec<u8> = (0..BYTES).map(|i| (i * 31 % 251) as u8).collect();
    let data = black_box(data);
    compare("1,000,000 bytes", || built_bytes(&data), || plain_bytes(&data));
    compare("100,000 keys of sixteen bytes", || keys(built_key), || keys(|s, i| plain_key(s, i)));
}
