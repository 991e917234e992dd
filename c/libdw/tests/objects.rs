//! Enumerations with data, whose variants have discriminants of their own, or are told by a pointer that can't be null.
use std::hint::black_box;

enum Shape {
    Circle { radius: u16 },
    Rectangle(u8, i64),
    Nothing,
}

#[derive(Clone, Copy)]
enum Color {
    Red = -3,
    Blue = 200,
}

fn main() {
    let (circle, rectangle, nothing) = (Shape::Circle { radius: 5 }, Shape::Rectangle(7, -8), Shape::Nothing);
    let (some, none): (Option<Box<i32>>, Option<Box<i32>>) = (Some(Box::new(9)), None);
    let colors = [(Color::Blue, true), (Color::Red, false)];
    let letter = 'ß';
    unsafe { std::arch::asm!("ud2") };
    black_box((&circle, &rectangle, &nothing, &some, &none, &colors, &letter));
    if let (Shape::Circle { radius }, Shape::Rectangle(wide, high)) = (&circle, &rectangle) {
        black_box((radius, wide, high, colors[0].0 as i32));
    }
}
