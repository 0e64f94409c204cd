// Structs and variants with fields, by position and by name.
struct Point {
    x: i8,
    y: i8,
}

struct Pair(bool, bool);

enum Shape {
    Dot(Point),
    Line { from: Point, to: Point },
    Nothing,
}

fn quadrant(p: Point) -> u8 {
    match p {
        Point { x: 0, .. } | Point { y: 0, .. } => 0,
        Point { x: 1.., y: 1.. } => 1,
        Point { x: ..=-1, y: 1.. } => 2,
        Point { x: ..=-1, y: ..=-1 } => 3,
    }
}

fn same(p: Pair) -> bool {
    match p {
        Pair(true, true) => true,
        Pair(false, false) => true,
        Pair { 1: true, .. } => false,
        Pair(true, false) => false,
    }
}

fn is_degenerate(shape: Shape) -> bool {
    match shape {
        Shape::Dot(_) => true,
        Shape::Line { from: Point { x: 0, y: 0 }, to: Point { x: 0, .. } } => true,
        Shape::Line { .. } => false,
    }
}
