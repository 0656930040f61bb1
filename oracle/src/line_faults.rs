//! Lines of no known form, of every kind that document 01 leaves out.

/// No number: not 1 to 10 digits, or not below 2^32. 4294967297 and 18446744073709551617 are 1 where what passes a word is lost.
const NUMBERS: [&[u8]; 29] = [
    b"",
    b" ",
    b"00000000000",
    b"00000000001",
    b"000000000000000000001",
    b"4294967296",
    b"4294967297",
    b"9999999999",
    b"10000000000",
    b"42949672961",
    b"18446744073709551616",
    b"18446744073709551617",
    b"+1",
    b"-1",
    b"-0",
    b" 1",
    b"1 ",
    b"1\r",
    b"1\0",
    b"\x001",
    b"0x1",
    b"1.",
    b"1,0",
    b"1e0",
    b"a",
    b"/",
    b":",
    b"\xb1",
    b"\xd9\xa1",
];

/// No key: not 16 digits, or not all hexadecimal. Of the bytes beside the digits and letters each stands once.
const KEYS: [&[u8]; 24] = [
    b"",
    b"7",
    b"000000000000007",
    b"00000000000000007",
    b"0x00000000000007",
    b"0X00000000000007",
    b"0x0000000000000007",
    b"000000000000000g",
    b"G000000000000000",
    b"000000000000000/",
    b"000000000000000:",
    b"000000000000000@",
    b"000000000000000`",
    b"+000000000000007",
    b"-000000000000007",
    b" 000000000000007",
    b"000000000000007 ",
    b"0000000 00000007",
    b"000000000000007h",
    b"000000000000007\r",
    b"000000000000007\0",
    b"000000000000007\xb7",
    b"00000000\t00000007",
    b"00000000000000\xc3\xa4",
];

/// Words alone and with what must not stand beside them.
const WORDS: [&[u8]; 98] = [
    b"",
    b" ",
    b"  ",
    b"\t",
    b"\t\t",
    b"\t\t\t",
    b"\r",
    b"\0",
    b"\x0b",
    b"\x1a",
    b"\x7f",
    b"\x80",
    b"\x8a",
    b"\xff",
    b"\xc3\xa4",
    b"0",
    b"#",
    b"join ",
    b" join",
    b"join\r",
    b"\rjoin",
    b"join\0",
    b"\0join",
    b"jo\0in",
    b"join\x0b",
    b"join\x89",
    b"join\x8a",
    b"\xeaoin",
    b"joi\xee",
    b"\xef\xbb\xbfjoin",
    b"jo\xc3\xadn",
    b"join\t",
    b"\tjoin",
    b"join\t\t",
    b"join\t0",
    b"join\tjoin",
    b"join join",
    b"joinjoin",
    b"j",
    b"joi",
    b"jion",
    b"joins",
    b"joined",
    b"joined\t0",
    b"Join",
    b"JOIN",
    b"joiN",
    b"a",
    b"admi",
    b"admits",
    b"admit ",
    b" admit",
    b"admit\r",
    b"admit\t",
    b"\tadmit",
    b"admit\t1",
    b"admit\t1\t2",
    b"Admit",
    b"ADMIT",
    b"none",
    b"p",
    b"pla",
    b"plans",
    b"plan ",
    b" plan",
    b"plan\r",
    b"plan\t",
    b"\tplan",
    b"plan\t0",
    b"plan\tplan",
    b"Plan",
    b"PLAN",
    b"0\t0\t0",
    b"withdraw",
    b"withdraw ",
    b"withdraw\t0\t",
    b"withdraw\t\t0",
    b"\twithdraw\t0",
    b"withdraw\t0\t0",
    b"withdraw\t0\t\t",
    b"withdraw 0",
    b"withdraw0",
    b"withdraw,0",
    b"withdra\t0",
    b"withdraws\t0",
    b"withdrawn\t0",
    b"Withdraw\t0",
    b"WITHDRAW\t0",
    b"w\t0",
    b"0\twithdraw",
    b"open",
    b"ope",
    b"opens",
    b"opened",
    b"close",
    b"refused\t12",
    b"help",
    b"quit",
];

/// Opens with a field too few, too many or elsewhere.
const OPENS: [&[u8]; 20] = [
    b"open\t",
    b"open\t0000000000000007",
    b"open\t0000000000000007\t",
    b"open\t0000000000000007\t1",
    b"open\t0000000000000007\t1\t9\t",
    b"open\t0000000000000007\t1\t9\t9",
    b"open\t0000000000000007\t1\t9\t\t",
    b"open\t\t0000000000000007\t1\t9",
    b"open\t0000000000000007\t\t1\t9",
    b"\topen\t0000000000000007\t1\t9",
    b" open\t0000000000000007\t1\t9",
    b"open \t0000000000000007\t1\t9",
    b"open 0000000000000007 1 9",
    b"open,0000000000000007,1,9",
    b"open0000000000000007\t1\t9",
    b"open\t1\t9",
    b"open\t1\t9\t0000000000000007",
    b"Open\t0000000000000007\t1\t9",
    b"OPEN\t0000000000000007\t1\t9",
    b"opens\t0000000000000007\t1\t9",
];

/// Every line above, and every number and key above in each place where one belongs.
pub fn malformed_lines() -> Vec<Vec<u8>> {
    let mut lines: Vec<Vec<u8>> = WORDS
        .iter()
        .chain(&OPENS)
        .map(|line| line.to_vec())
        .collect();
    for number in NUMBERS {
        lines.push([b"withdraw\t", number].concat());
        lines.push([b"open\t0000000000000007\t", number, b"\t9"].concat());
        lines.push([b"open\t0000000000000007\t1\t", number].concat());
    }
    lines.extend(KEYS.map(|key| [b"open\t", key, b"\t1\t9"].concat()));
    lines
}

/// A line that starts as one thing and is filled up to a length with another.
pub fn filled(start: &[u8], fill: u8, bytes: usize) -> Vec<u8> {
    let mut line = start.to_vec();
    line.resize(bytes, fill);
    line
}

/// Lines of such a length, which is more than any known form has: filled with what might be taken for nothing, or with zeros
/// before a number, and with a good line at the end.
pub fn long_lines(bytes: usize) -> Vec<Vec<u8>> {
    let starts: [(&[u8], u8); 7] = [
        (b"join", 0),
        (b"join", b' '),
        (b"plan", b'\t'),
        (b"admit", b'\r'),
        (b"withdraw\t", b'0'),
        (b"open\t0000000000000007\t1\t", b'0'),
        (b"", b'x'),
    ];
    let mut lines: Vec<_> = starts
        .iter()
        .map(|&(start, fill)| filled(start, fill, bytes))
        .collect();
    lines.push([filled(b"", b'x', bytes - 4), b"join".to_vec()].concat());
    lines.push([filled(b"withdraw\t", b'0', bytes - 1), b"1".to_vec()].concat());
    lines
}
