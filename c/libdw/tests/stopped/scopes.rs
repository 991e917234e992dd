//! Variables of functions in modules, of methods and of closures. Its argument says where it stops.
use std::hint::black_box;
use std::sync::atomic::{AtomicU32, Ordering};

static AT: AtomicU32 = AtomicU32::new(0);

macro_rules! stop {
    ($k:expr) => {
        if AT.load(Ordering::Relaxed) == $k {
            unsafe { std::arch::asm!("ud2") }
        }
    };
}

struct Shape {
    sides: u8,
    wide: u64,
}

impl Shape {
    #[inline(never)]
    fn area(&self, width: u64) -> u64 {
        let result = u64::from(self.sides) * width + self.wide;
        stop!(1);
        black_box(result)
    }
}

#[inline(never)]
fn generic<T: Copy + Into<i64>>(given: T, pair: (T, bool)) -> i64 {
    let number: i64 = given.into();
    let sum = number + pair.0.into();
    stop!(2);
    black_box(sum)
}

#[inline(never)]
fn closures(base: i32) -> i32 {
    let outside = base + 1;
    let add = |more: i32| {
        let inside = outside + more;
        stop!(3);
        black_box(inside)
    };
    let result = add(5) + add(6);
    black_box(result + outside)
}

#[inline(never)]
fn slices(words: &[u16], letter: char) -> usize {
    let first = words[0];
    let mut sum = 0usize;
    for (index, word) in words.iter().enumerate() {
        sum += index * usize::from(*word);
        if index == 2 {
            stop!(4);
        }
    }
    black_box(sum + usize::from(first) + letter as usize)
}

fn main() {
    let place = std::env::args().nth(1).and_then(|word| word.parse().ok()).unwrap_or(0);
    AT.store(place, Ordering::Relaxed);
    let n = std::env::args().count() as i32;
    let shape = Shape { sides: n as u8, wide: 1 << 40 };
    let mut total = shape.area(3) as i64 + generic(n, (n + 1, true)) + generic(n as u8, (3, false));
    total += i64::from(closures(n)) + slices(&[3, n as u16, 5, 7], 'ß') as i64;
    stop!(5);
    black_box(total);
}
