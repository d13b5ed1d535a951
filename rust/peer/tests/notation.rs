//! The makers' notation: every worked text, and pages that come back.
use peer::*;

/// The words of a text, or its refusal with line and column.
fn words(text: &str) -> Result<Vec<u32>, (u32, usize, usize)> {
    let mut out = vec![0xA5; 4 * (text.len() + 1)];
    match assemble(text.as_bytes(), &mut out) {
        Ok(length) => {
            assert!(out[length..].iter().all(|&byte| byte == 0xA5));
            Ok(out[..length]
                .chunks_exact(4)
                .map(|word| u32::from_le_bytes(word.try_into().unwrap()))
                .collect())
        }
        Err(bad) => {
            assert!(out.iter().all(|&byte| byte == 0xA5));
            Err((bad.refusal, bad.line, bad.column))
        }
    }
}

fn word(text: &str) -> Result<u32, (u32, usize)> {
    let words = words(text).map_err(|(refusal, line, column)| {
        assert_eq!(line, 1);
        (refusal, column)
    })?;
    assert_eq!(words.len(), 1, "{text}");
    Ok(words[0])
}

fn listing(word: u32) -> String {
    let mut out = [0; 18];
    let length = list(&word.to_le_bytes(), &mut out).unwrap();
    String::from_utf8(out[..length].to_vec()).unwrap()
}

#[test]
fn worked_words() {
    for (text, value) in [
        ("addi 1,0,7", 0x2401_0007),
        ("sw 1,64(0)", 0xAC01_0040),
        ("trap 5", 0xF800_0005),
        ("slli 0,0,0", 0),
        ("5", 5),
        ("j -8", 0x0BFF_FFF8),
        ("lhgi 3,65535", 0x3C03_FFFF),
        ("4294967295", u32::MAX),
        ("1543503873", 0x5C00_0001),
    ] {
        assert_eq!(word(text), Ok(value), "{text}");
        assert_eq!(listing(value), format!("{text}\n"));
    }
    assert_eq!(listing(0x5BE0_0001), "1541406721\n");
    for (text, same) in [
        ("add 1+0,(2),5-2", "add 1,2,3"),
        ("addi 1--2,0,1--2", "addi 3,0,3"),
        ("sw 1,(4+4)(0)", "sw 1,8(0)"),
        (" \taddi\r1 , 0\t,7 \r", "addi 1,0,7"),
        ("addi 0001,00,007", "addi 1,0,7"),
        ("addi 1,0,((((((((7))))))))", "addi 1,0,7"),
        ("addi 1,0,-(((((((7)))))))+((((((((8))))))))", "addi 1,0,1"),
        ("addi 1,0,-2147483647-1+2147483647", "addi 1,0,-1"),
        ("trap 67108863", "trap 67108863"),
        ("jal -33554432", "jal -33554432"),
        ("000", "slli 0,0,0"),
    ] {
        assert_eq!(word(text), word(same), "{text}");
        assert!(word(text).is_ok(), "{text}");
    }
}

#[test]
fn worked_refusals() {
    for (text, refusal, column) in [
        ("ADDI 1,0,7", 8, 1),
        ("addi1,0,7", 8, 1),
        ("j-8", 8, 1),
        ("-5", 8, 1),
        ("  ", 8, 3),
        (" mul 1,2,3", 8, 2),
        ("addi\0 1,0,7", 8, 1),
        ("5+3", 9, 2),
        ("5 3", 9, 3),
        ("5\u{b}", 9, 2),
        ("4294967296", 10, 1),
        ("addi", 9, 5),
        ("addi ", 9, 6),
        ("addi 1,0", 9, 9),
        ("addi 1,0,--2", 9, 11),
        ("addi 1,0,+2", 9, 10),
        ("addi 1,0,0x7", 9, 11),
        ("addi 1,0,7,", 9, 11),
        ("addi r1,0,7", 9, 6),
        ("addi 1,0,(((((((((7)))))))))", 9, 18),
        ("addi 1,0,(7", 9, 12),
        ("addi 1,0,()", 9, 11),
        ("sw 1,(0)", 9, 9),
        ("sw 1,4(0)0", 9, 10),
        ("addi 32 x", 10, 6),
        ("sw 1,40000", 10, 6),
        ("addi 40+x,0,0", 9, 9),
        ("addi 1,0,1+2147483648", 10, 12),
        ("addi 1,0,-2147483648", 10, 11),
        ("addi 1,0,2147483647+1-1", 10, 10),
        ("addi 1,0,1+(2147483647+1)", 10, 13),
        ("addi 1,0,1+-(-2147483647-1)", 10, 12),
        ("addi 1,0,32768", 10, 10),
        ("addi 1,0,-32769", 10, 10),
        ("lhgi 1,-1", 10, 8),
        ("lhgi 1,65536", 10, 8),
        ("slli 1,2,32", 10, 10),
        ("trap 67108864", 10, 6),
        ("trap -1", 10, 6),
        ("j 33554432", 10, 3),
    ] {
        assert_eq!(word(text), Err((refusal, column)), "{text}");
    }
}

#[test]
fn lines_and_room() {
    assert_eq!(words(""), Ok(vec![]));
    assert_eq!(words("5\n6"), Ok(vec![5, 6]));
    assert_eq!(words("5\n6\n"), Ok(vec![5, 6]));
    assert_eq!(words("5\r\n6\r\n"), Ok(vec![5, 6]));
    assert_eq!(words("5\n\n6"), Err((8, 2, 1)));
    assert_eq!(words("\n"), Err((8, 1, 1)));
    assert_eq!(words("5\nmul\n?"), Err((8, 2, 1)));
    let mut out = [7; 7];
    assert_eq!(assemble(b"5\n6", &mut out), Err(Bad { refusal: 7, line: 0, column: 0 }));
    assert_eq!(assemble(b"5\n6\nx", &mut out), Err(Bad { refusal: 8, line: 3, column: 1 }));
    assert_eq!(list(&[0; 3], &mut out), Err(1));
    assert_eq!(list(&[0; 4], &mut out), Err(7));
    assert_eq!(out, [7; 7]);
    assert_eq!(list(&[], &mut []), Ok(0));
}

/// Every key with and without noise in the other bits, back from its listing, in at most 18 bytes a line.
#[test]
fn pages_come_back() {
    let mut words: Vec<u32> = Vec::new();
    let mut noise = 1u32;
    for key in (0..64).map(|opcode| opcode << 26).chain(0..64) {
        for _ in 0..64 {
            noise = noise.wrapping_mul(1_664_525).wrapping_add(1_013_904_223);
            let mask = if key < 64 { 0x03FF_FFC0 } else { 0x03FF_FFFF };
            let fields = [0, 0x03FF_FFFF, 0xFFFF, 0x03E0_0000, 0x001F_0000, 0xF800, 0x7C0, 0x03FF_F800];
            words.extend(fields.map(|field| key | noise & field & mask));
        }
    }
    let bytes: Vec<u8> = words.iter().flat_map(|word| word.to_le_bytes()).collect();
    let mut text = vec![0; 18 * words.len()];
    let length = list(&bytes, &mut text).unwrap();
    assert!(text[..length].split(|&byte| byte == b'\n').all(|line| line.len() <= 17));
    let mut back = vec![0; bytes.len()];
    assert_eq!(assemble(&text[..length], &mut back), Ok(bytes.len()));
    assert!(back == bytes);
}
