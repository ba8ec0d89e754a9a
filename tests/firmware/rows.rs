// What examples/firmware/display.rs does with every number and tag, those that no run gives and those that have no row: its own functions, with its main left uncalled.
// rows.c asks the same of display.c, in the same order; rows.stored is what both must say.
#[allow(dead_code)]
mod display {
    include!("../../examples/firmware/display.rs");

    #[rustfmt::skip]
    const NUMBERS: [u64; 12] = [23, 24, 128, 255, 256, 268, 65536, 2147483648, 4294967295, 4294967296, 4294967308, u64::MAX];
    #[rustfmt::skip]
    const VALUES: [(u32, u32); 28] = [
        (0, 0), (0, 9), (1, 0), (1, 1), (1, 2), (1, 256), (2, 0), (2, 2147483647), (2, 2147483648), (2, 4294967295), (3, 0), (3, 65538), (3, 131074),
        (4, 3), (4, 131074), (5, 0), (6, 1), (128, 1), (255, 0), (256, 0), (257, 1), (258, 0), (259, 3), (260, 3), (65536, 0), (65539, 3), (2147483648, 0),
        (4294967295, 4294967295),
    ];

    fn outcome(shown: bool) -> &'static str {
        if shown {
            "(shown)\n"
        } else {
            "(not shown)\n"
        }
    }

    pub fn rows() -> String {
        let mut said = String::new();
        for number in (0..23).chain(NUMBERS) {
            let shown = say_answer(&mut said, number, 7) == Action::Show;
            said += outcome(shown);
        }
        // each of them in one of the four places, beside three that can be shown
        for (i, (tag, payload)) in VALUES.into_iter().enumerate() {
            let mut of = [0, 0, 0, 0, 2, 10, 2, 11, 2, 12, 2, 13];
            of[4 + 2 * (i % 4)] = tag;
            of[5 + 2 * (i % 4)] = payload;
            said += &format!("tag {tag}, payload {payload}\n");
            let shown = say_values(&mut said, b"a\"\n", b"x\\\xff", &of);
            said += outcome(shown);
        }
        said
    }
}

fn main() {
    print!("{}", display::rows());
}
