//! The call script: what is a bad line, and what the buffer commands do.

use second::player::play;

fn played(script: &str) -> String {
    play(script.as_bytes())
}

#[test]
fn the_example_of_the_format() {
    let script = "give 4 1 4\nfit\nformat\nmount\ncreate 0 0 =7461736b 1\nwrite 0 1 0 =68690a\nstat 0 1\npush 2\n\
                  push 1\npush 2\nlookup 0 =2f7461736b\nfsync 0 1 0\ncut\n";
    assert_eq!(played(script), "0\n0\n0 1\n0 2\n0 1 3 0\n15\n0\n0\n0 1\n0 0\n0\n");
    assert_eq!(played(script.trim_end()), played(script), "the last line may lack its newline");
}

#[test]
fn bad_lines_end_the_run() {
    let long_bytes = format!("record 0 ={}", "00".repeat(2049));
    let long_comment = format!("#{}", "x".repeat(8191));
    let bad = [
        "unknown",
        " format",
        "format ",
        "format  ",
        "mount 1",
        "lookup 0",
        "lookup  0 =2f",
        "lookup 0 =2f 1",
        "lookup 0 2f",
        "lookup 0 =2F",
        "lookup 0 =2",
        "lookup 0 ==",
        "lookup 00 =2f",
        "lookup +1 =2f",
        "lookup -1 =2f",
        "lookup 18446744073709551616 =2f",
        "lookup 0x1 =2f",
        "lookup  =2f",
        "stat 0 01",
        "push",
        "push 1 2",
        "Format",
        "remove 0 0 =61",
        "rmfile 0 0 =61 1",
        "rmdir 0 0",
        "format\r",
        "size 32769 0 0",
        "size 0 32769 0",
        "size 0 0 32769",
        "poke s 32768 =00",
        "poke x 0 =00",
        "poke s 18446744073709551615 =00",
        "show s 0 2049",
        "show s 32768 1",
        "show s 18446744073709551615 2",
        "copy s",
        "copy s x",
        "give 1 2",
        "fit 1",
        "\t",
        " ",
        &long_bytes,
        &long_comment,
    ];
    for line in bad {
        assert_eq!(played(&format!("# one\n\nrenew 0\n{line}\nrenew 0\n")), "1\nbad line 4\n", "{line}");
    }
}

#[test]
fn lines_at_their_limits_are_good() {
    let longest_bytes = format!("record 0 ={}", "00".repeat(2048));
    let longest_comment = format!("#{}", "x".repeat(8190));
    assert_eq!(played(&longest_bytes), "20 0 0 0 0\n");
    assert_eq!(played(&longest_comment), "");
    assert_eq!(played("poke s 32768 =\nshow s 32768 0\nsize 32768 32768 32768\nshow l 30720 2048\n").len(), 2 + 4098);
    assert_eq!(played("stat 18446744073709551615 0"), "1 0 0 0\n");
    assert_eq!(played(""), "");
    assert_eq!(played("\n\n"), "");
}

#[test]
fn fit_reckons_without_overflow() {
    let most = u64::MAX;
    assert_eq!(played(&format!("give {most} {most} 1\nfit")), "bad line 2\n");
    assert_eq!(played(&format!("give 1 1 {most}\nfit")), "bad line 2\n");
    assert_eq!(played(&format!("give 0 {most} 1\nfit\nformat")), "1\n", "no objects need no bytes");
    assert_eq!(played("give 30 1 31\nfit\nformat\nmount"), "0\n0\n");
    assert_eq!(played("give 31 1 31\nfit"), "bad line 2\n");
    assert_eq!(played("give 30 1 32\nfit"), "bad line 2\n");
}

#[test]
fn areas_are_poked_copied_and_shown() {
    let script = "poke s 1 =0102\ncopy v s\npoke s 0 =ff\nshow s 0 4\nshow v 0 4\nshow l 0 0\n";
    assert_eq!(played(script), "=ff010200\n=00010200\n=\n");
}

#[test]
fn the_digest_is_fnv_1a() {
    // Reckoned step by step with whole numbers and the remainder by 2 to the 64.
    let digest = |area: &[u8]| {
        area.iter()
            .fold(14_695_981_039_346_656_037u128, |hash, &byte| (hash ^ byte as u128) * 1_099_511_628_211 % (1 << 64))
    };
    let mut area = vec![0; 32_768];
    let zeros = digest(&area);
    area[32_767] = 1;
    assert_eq!(played("poke v 32767 =01\ndigest"), format!("{zeros} {} {zeros}\n", digest(&area)));
}

#[test]
fn buffers_are_printed_whole() {
    let start = "give 3 1 3\nfit\nformat\nmount\ncreate 1 0 =6162 2\n";
    assert_eq!(played(&format!("{start}list 1 0 =eeeeeeeeeeeeee")), "0\n0\n0 1\n0 6 =020001026162ee\n");
    assert_eq!(played(&format!("{start}list 1 0 =eeeeeeeeee")), "0\n0\n0 1\n19 0 =eeeeeeeeee\n");
    assert_eq!(played(&format!("{start}read 1 2 0 =ee")), "0\n0\n0 1\n0 0 =ee\n");
}
