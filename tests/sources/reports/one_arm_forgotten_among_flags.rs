// The arm where no flag is set by day is forgotten. Whatever place is looked at first, thousands of values before the
// last place leave nothing missing.
enum Mode { Day, Night }

fn ready(x: (bool, bool, bool, bool, bool, bool, bool, bool, bool, bool, bool, bool, bool, Mode)) -> u32 {
    match x {
        (true, _, _, _, _, _, _, _, _, _, _, _, _, Mode::Day) => 0,
        (_, true, _, _, _, _, _, _, _, _, _, _, _, Mode::Day) => 1,
        (_, _, true, _, _, _, _, _, _, _, _, _, _, Mode::Day) => 2,
        (_, _, _, true, _, _, _, _, _, _, _, _, _, Mode::Day) => 3,
        (_, _, _, _, true, _, _, _, _, _, _, _, _, Mode::Day) => 4,
        (_, _, _, _, _, true, _, _, _, _, _, _, _, Mode::Day) => 5,
        (_, _, _, _, _, _, true, _, _, _, _, _, _, Mode::Day) => 6,
        (_, _, _, _, _, _, _, true, _, _, _, _, _, Mode::Day) => 7,
        (_, _, _, _, _, _, _, _, true, _, _, _, _, Mode::Day) => 8,
        (_, _, _, _, _, _, _, _, _, true, _, _, _, Mode::Day) => 9,
        (_, _, _, _, _, _, _, _, _, _, true, _, _, Mode::Day) => 10,
        (_, _, _, _, _, _, _, _, _, _, _, true, _, Mode::Day) => 11,
        (_, _, _, _, _, _, _, _, _, _, _, _, true, Mode::Day) => 12,
        (_, _, _, _, _, _, _, _, _, _, _, _, _, Mode::Night) => 13,
    }
}
