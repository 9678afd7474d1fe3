//! Lines of setups worked out by hand.

use super::numbers;
use crate::law::setup::{read_line, write_line};

/// The number that comes with so much room, and what the answer's slice holds then.
fn asked(line: &[u8], room: usize) -> (u32, Vec<u8>) {
    let mut answer = vec![7; room];
    let number = read_line(line, &mut answer);
    (number, answer)
}

/// SP, NP, FP and SN of a line, or the refusal.
fn read(line: &[u8]) -> Result<Vec<u64>, u32> {
    let (number, answer) = asked(line, 32);
    if number != 0 {
        assert_eq!(answer, [7; 32]);
        return Err(number);
    }
    Ok(numbers(&answer))
}

/// The line of a setup that nothing refuses.
fn written([sp, np, fp, sn]: [u32; 4]) -> Vec<u8> {
    let (mut out, mut answer) = ([7; 70], [7; 8]);
    assert_eq!(write_line(sp, np, fp, sn, &mut out, &mut answer), 0);
    let length = numbers(&answer)[0] as usize;
    assert!(out[length..].iter().all(|byte| *byte == 7));
    out[..length].to_vec()
}

#[test]
fn lines_and_their_numbers() {
    let table: [(&[u8], [u64; 4]); 14] = [
        (b"WFSU SP,4,NP,0,FP,10,SN,0", [4, 0, 10, 0]),
        (b"WAVEFORM_SETUP SP,4,NP,0,FP,10,SN,0", [4, 0, 10, 0]),
        (b"WFSU FP,10,SP,4", [4, 0, 10, 0]),
        (b"WAVEFORM_SETUP SN,2", [0, 0, 0, 2]),
        (b"WFSU NP,3", [0, 3, 0, 0]),
        (b"WFSU SP,0", [0, 0, 0, 0]),
        (b"WFSU SN,1,FP,2,NP,3,SP,4", [4, 3, 2, 1]),
        (b"WFSU FP,0000000007,SP,4294967295", [4_294_967_295, 0, 7, 0]),
        (b"WFSU SP,4294967294,NP,1000000000", [4_294_967_294, 1_000_000_000, 0, 0]),
        (b"WFSU SP,999999999,SN,2147483648", [999_999_999, 0, 0, 2_147_483_648]),
        (b"WFSU SP,0000000000", [0, 0, 0, 0]),
        (b"WFSU SP,01,NP,002,FP,0003", [1, 2, 3, 0]),
        (b"WFSU SP,0123456789", [123_456_789, 0, 0, 0]),
        (
            b"WAVEFORM_SETUP SN,4294967295,FP,4294967295,NP,4294967295,SP,4294967295",
            [4_294_967_295; 4],
        ),
    ];
    for (line, expected) in table {
        assert_eq!(read(line).as_deref(), Ok(&expected[..]), "{}", line.escape_ascii());
    }
}

#[test]
fn words_and_blanks() {
    let lines: [&[u8]; 23] = [
        b"",
        b" ",
        b"WFSU",
        b"WFSU ",
        b"WFSU  ",
        b"WAVEFORM_SETUP",
        b"WAVEFORM_SETUP ",
        b"SP,4",
        b" SP,4",
        b"wfsu SP,4",
        b"Wfsu SP,4",
        b"waveform_setup SP,4",
        b"WFS SP,4",
        b"WFSUP SP,4",
        b"WAVEFORM_SETU SP,4",
        b"WAVEFORM SETUP SP,4",
        b" WFSU SP,4",
        b"WFSU  SP,4",
        b"WFSU\tSP,4",
        b"WFSUSP,4",
        b"WAVEFORM_SETUPSP,1",
        b"WFSU,SP,4",
        b"WFSU WFSU SP,4",
    ];
    refused(&lines);
}

#[test]
fn pairs_and_ends() {
    let lines: [&[u8]; 27] = [
        b"WFSU SP",
        b"WFSU SP,",
        b"WFSU ,4",
        b"WFSU 4",
        b"WFSU 4,SP",
        b"WFSU ,",
        b"WFSU SP4",
        b"WFSU SP,4,",
        b"WFSU ,SP,4",
        b"WFSU SP,,4",
        b"WFSU SP,4,,NP,1",
        b"WFSU SP,4NP,1",
        b"WFSU SP,4 NP,1",
        b"WFSU SP, 4",
        b"WFSU SP ,4",
        b"WFSU SP,4, NP,1",
        b"WFSU SP,4;NP,1",
        b"WFSU SP=4",
        b"WFSU SP,4 ",
        b"WFSU SP,4\n",
        b"WFSU SP,4\r\n",
        b"WFSU SP,4\0",
        b"WFSU SP,4,SP,4",
        b"WFSU SP,4,NP,1,SP,5",
        b"WFSU SP,0,NP,1,FP,2,SN,3,SP,0",
        b"WFSU XP,1",
        b"WFSU sp,1",
    ];
    refused(&lines);
}

#[test]
fn values() {
    let lines: [&[u8]; 17] = [
        b"WFSU SP,4294967296",
        b"WFSU SP,4294967300",
        b"WFSU SP,5000000000",
        b"WFSU SP,9999999999",
        b"WFSU SP,10000000000",
        b"WFSU SP,00000000001",
        b"WFSU SP,00000000000",
        b"WFSU SP,04294967295",
        b"WFSU SP,18446744073709551620",
        b"WFSU SP,-1",
        b"WFSU SP,+1",
        b"WFSU SP,0x1",
        b"WFSU SP,1.0",
        b"WFSU SP,1,000",
        b"WFSU SP,/",
        b"WFSU SP,:",
        b"WFSU SP,\xB4",
    ];
    refused(&lines);
}

fn refused(lines: &[&[u8]]) {
    for line in lines {
        assert_eq!(read(line), Err(15), "{}", line.escape_ascii());
    }
}

#[test]
fn normal_lines() {
    assert_eq!(written([4, 0, 10, 0]), b"WFSU SP,4,NP,0,FP,10,SN,0");
    assert_eq!(written([0; 4]), b"WFSU SP,0,NP,0,FP,0,SN,0");
    let longest = b"WFSU SP,4294967295,NP,4294967295,FP,4294967295,SN,4294967295";
    assert_eq!((written([u32::MAX; 4]), longest.len()), (longest.to_vec(), 60));
    assert_eq!(written([1, 20, 300, 4000]), b"WFSU SP,1,NP,20,FP,300,SN,4000");
    // Typed, read and written.
    let [sp, np, fp, sn] = [0, 1, 2, 3].map(|i| read(b"WAVEFORM_SETUP SN,02,FP,010").unwrap()[i]);
    assert_eq!(written([sp, np, fp, sn].map(|n| n as u32)), b"WFSU SP,0,NP,0,FP,10,SN,2");
}

#[test]
fn thirteen_comes_behind_fifteen() {
    for room in [0, 8, 31] {
        assert_eq!(asked(b"WFSU SP,4", room), (13, vec![7; room]));
        assert_eq!(asked(b"WFSU SP,4,", room), (15, vec![7; room]));
    }
    let (number, answer) = asked(b"WFSU SP,4,SN,1", 40);
    assert_eq!((number, numbers(&answer[..32])), (0, vec![4, 0, 0, 1]));
    assert_eq!(answer[32..], [7; 8]);
    // The line takes 25 bytes, and its length 8.
    let rooms =
        [(25, 8, 0), (24, 8, 15), (0, 8, 15), (25, 7, 13), (60, 0, 13), (24, 7, 15), (0, 0, 15)];
    for (out_room, answer_room, number) in rooms {
        let (mut out, mut answer) = (vec![7; out_room], vec![7; answer_room]);
        assert_eq!(write_line(4, 0, 10, 0, &mut out, &mut answer), number);
        match number {
            0 => assert_eq!((&out[..], numbers(&answer)), (&written([4, 0, 10, 0])[..], vec![25])),
            _ => assert!(out.iter().chain(&answer).all(|byte| *byte == 7)),
        }
    }
}
