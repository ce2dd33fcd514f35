//! Scripts that end in a bad line; the seed says which.

use crate::builder::Builder;

fn cases() -> Vec<(&'static str, String)> {
    let text = |line: &str| line.to_string();
    vec![
        ("An unknown command.", text("unmount")),
        ("A command in capital letters.", text("Format")),
        ("A space before the command.", text(" format")),
        ("A space at the end.", text("format ")),
        ("Two spaces between words.", text("stat 0  0")),
        ("A line of one space.", text(" ")),
        ("A carriage return before the newline.", text("format\r")),
        ("A tab between words.", text("stat 0\t0")),
        ("A byte 0 in a word.", text("stat 0 0\0")),
        ("A byte over 127 in a word.", text("stat 0 0\u{e9}")),
        ("One argument too few.", text("stat 0")),
        ("One argument too many.", text("cut 0")),
        ("A number with a needless zero.", text("stat 0 00")),
        ("A number with a sign.", text("stat 0 -1")),
        ("A number over 64 bits.", text("push 18446744073709551616")),
        ("A number where bytes stand.", text("lookup 0 2f")),
        ("Bytes where a number stands.", text("stat 0 =00")),
        ("An odd number of hexadecimal digits.", text("lookup 0 =2f6")),
        ("Capital hexadecimal digits.", text("lookup 0 =2F")),
        ("A digit that is none.", text("lookup 0 =2g")),
        ("Bytes over 2,048.", format!("record 0 ={}", "00".repeat(2049))),
        ("A line over 8,191 bytes.", format!("rename 0 0 ={} 0 ={}", "61".repeat(2048), "62".repeat(2048))),
        ("A comment over 8,191 bytes.", format!("#{}", "x".repeat(8191))),
        ("A length over 32,768.", text("size 0 32769 0")),
        ("A poke past the end.", text("poke l 32767 =0000")),
        ("A poke far past the end.", text("poke s 18446744073709551615 =00")),
        ("A poke of no area.", text("poke m 0 =00")),
        ("A show past the end.", text("show v 32768 1")),
        ("A show of over 2,048 bytes.", text("show v 0 2049")),
        ("A copy to one area only.", text("copy s")),
        ("Volumes over the area.", text("give 31 1 4\nfit")),
        ("A log over the area.", text("give 2 1 32\nfit")),
        ("Numbers whose product is over 128 bits.", text("give 18446744073709551615 18446744073709551615 1\nfit")),
        ("A removal that does not say of what.", text("remove 0 0 =61")),
    ]
}

pub fn bad(builder: &mut Builder) {
    let cases = cases();
    let at = builder.seed as usize % cases.len();
    write(builder, &cases[at]);
}

/// Some calls, the bad line, and a call that is not made any more.
fn write(builder: &mut Builder, (what, line): &(&'static str, String)) {
    builder.comment(what);
    builder.begin(4, 1, 4);
    builder.say("create 0 0 =61 1");
    builder.raw(&format!("\n{line}\nstat 0 1\n"));
}
