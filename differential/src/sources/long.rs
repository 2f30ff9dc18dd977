//! Long sources: at the limit of 65,536 bytes, and rows of one thing that go far beyond the other limits.

/// Long sources: at and around 65,536 bytes, deep beyond every limit, long rows of one thing.
pub fn long(f: &mut impl FnMut(&[u8])) {
    for length in [65535, 65536, 65537, 70000] {
        #[rustfmt::skip]
        let units = [
            "a", "\n", " ", ";", "a\n", "in-1\n", "nop\n", "db 1\n", "dw 65535\n", "times 1 a\n", "equ 1+2*3\n", "a.", "a.b c. ", "db 0abh\n",
            "times 1bha\n",
        ];
        for unit in units {
            let mut text = unit.repeat(length / unit.len() + 1);
            text.truncate(length);
            f(text.as_bytes());
        }
    }
    for count in [100, 13000] {
        f(format!("mov {}[bx]", "byte ".repeat(count)).as_bytes());
        f(format!("equ {}1", "1+".repeat(count)).as_bytes());
        f(format!("equ 1{}", "*2/3".repeat(count)).as_bytes());
        f(format!("equ {}1{}", "(".repeat(count), ")".repeat(count)).as_bytes());
        f(format!("equ {}1", "-".repeat(count)).as_bytes());
        f(format!("db {}", "1,".repeat(count)).as_bytes());
        f(format!("db '{}'", "x".repeat(count)).as_bytes());
        f(format!("{}dw 65536", "dw 65535\n".repeat(count / 2)).as_bytes());
        f("times 1 ".repeat(count / 20).as_bytes());
        f("1".repeat(count / 4).as_bytes());
        f("'".repeat(count / 4).as_bytes());
        f(format!("{}a", "\n".repeat(count)).as_bytes());
        f("\u{e9}".repeat(count).as_bytes());
        f(format!("a{} equ 1", ".".repeat(count)).as_bytes());
        f(format!("{}db 256", "a.b: in c.,d.e\n".repeat(count / 4)).as_bytes());
        for (first, last) in [("0", "bh"), ("0", "dH"), ("1", "bh"), ("1", "bo"), ("0", "7ffffffdh"), ("0", "8000000bh"), ("2", "b")] {
            f(format!("equ {first}{}{last}", "0".repeat(count)).as_bytes());
        }
    }
}
