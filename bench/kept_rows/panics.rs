// Calls with Rust's frames: a panic that is caught, closures, drops, a sort that calls back. The stack is walked at
// each instruction (own.h).
//     panics CALLS STEPPED
extern "C" {
    fn own_start();
    fn own_begin();
    fn own_end();
    fn own_compare();
    fn own_report(name: *const std::ffi::c_char) -> i32;
}

struct Noted(String);
impl Drop for Noted {
    fn drop(&mut self) {
        std::hint::black_box(&self.0);
    }
}

fn next(depth: u32, seed: u64, stepped: bool) -> u64 {
    let seed = seed.wrapping_mul(6364136223846793005).wrapping_add(1442695040888963407);
    if depth == 0 {
        if !stepped {
            unsafe { own_compare() };
        }
        if seed >> 62 == 1 {
            std::panic::resume_unwind(Box::new(7u64));
        }
        return "12".parse::<u64>().unwrap() + format!("{:?}", Some(3.5)).len() as u64;
    }
    match (seed >> 40) % 5 {
        0 => {
            let noted = Noted("a name".to_string());
            next(depth - 1, seed, stepped) + noted.0.len() as u64
        }
        1 => std::panic::catch_unwind(|| next(depth - 1, seed, stepped)).unwrap_or(3),
        2 => {
            let mut numbers = vec![3, 1, 2];
            let mut sum = None;
            numbers.sort_by(|a, b| {
                sum.get_or_insert_with(|| next(depth - 1, seed, stepped));
                a.cmp(b)
            });
            sum.unwrap() + numbers[0]
        }
        3 => {
            let called: Box<dyn Fn() -> u64> = Box::new(move || next(depth - 1, seed, stepped));
            std::hint::black_box(called)() + 1
        }
        _ => {
            #[repr(align(64))]
            struct Aligned([u64; 16]);
            let aligned = std::hint::black_box(Aligned([seed; 16]));
            next(depth - 1, seed, stepped) + (aligned.0[3] & 1)
        }
    }
}

fn main() {
    let numbers: Vec<u64> = std::env::args().skip(1).map(|n| n.parse().unwrap()).collect();
    unsafe { own_start() };
    let mut sum = 0u64;
    for i in 0..numbers[0] + numbers[1] {
        let stepped = i >= numbers[0];
        if stepped {
            unsafe { own_begin() };
        }
        sum = sum.wrapping_add(std::panic::catch_unwind(|| next(5, i * 77, stepped)).unwrap_or(1));
        if stepped {
            unsafe { own_end() };
        }
    }
    std::hint::black_box(sum);
    let name = std::ffi::CString::new(std::env::args().next().unwrap()).unwrap();
    std::process::exit(unsafe { own_report(name.as_ptr()) });
}
