//! Plays a script and says, line by line, what was answered.

use crate::answer::{Answer, Held};
use crate::script::{Broken, Command, Letters, Rest};

/// What one place of a script came to.
#[derive(Debug)]
pub enum Outcome {
    Answered(Command, Answer),
    /// The command's number, counted from 0.
    ScriptError(usize, Broken),
}

impl Outcome {
    pub fn line(&self) -> String {
        match self {
            Outcome::Answered(_, answer) => answer.line(),
            Outcome::ScriptError(command, _) => format!("script error at {command}"),
        }
    }
}

/// The outcomes of a script in their order; a script error is the last.
pub struct Replay<'a> {
    rest: Rest<'a>,
    held: Held,
    command: usize,
    broken: bool,
}

impl<'a> Replay<'a> {
    pub fn of(script: &'a [u8]) -> Replay<'a> {
        Replay::by(Letters::All, script)
    }

    /// By a player that knows these letters.
    pub fn by(letters: Letters, script: &'a [u8]) -> Replay<'a> {
        Replay { rest: Rest::of(script, letters), held: Held::default(), command: 0, broken: false }
    }

    fn play(&mut self, command: Command) -> Outcome {
        self.command += 1;
        let answer = Answer::to(&command, &mut self.held);
        Outcome::Answered(command, answer)
    }

    /// Nothing behind a script error is played.
    fn stop(&mut self, broken: Broken) -> Outcome {
        self.broken = true;
        Outcome::ScriptError(self.command, broken)
    }
}

impl Iterator for Replay<'_> {
    type Item = Outcome;

    fn next(&mut self) -> Option<Outcome> {
        if self.broken || self.rest.is_empty() {
            return None;
        }
        match self.rest.take_command() {
            Ok(command) => Some(self.play(command)),
            Err(broken) => Some(self.stop(broken)),
        }
    }
}

/// The whole text that a script gives.
pub fn text(script: &[u8]) -> String {
    text_by(Letters::All, script)
}

/// The same by a player that knows these letters.
pub fn text_by(letters: Letters, script: &[u8]) -> String {
    Replay::by(letters, script).map(|outcome| outcome.line() + "\n").collect()
}

#[cfg(test)]
mod tests {
    use super::*;

    #[test]
    fn lines_by_hand() {
        let script = b"F\x00\x09\x00123456789\
            R\x01\x08\x00\x20\x01\x01\xA7\xC0\x3B\xD0\x8F\
            R\x00\x08\x00\x20\x01\x01\xA7\xC0\x3B\xD0\x8F\
            W\x00\xE4\x01\x00\x00\x00\x00\x0A\x00\
            W\x00\x04\x01\x00\x00\x00\x00\x02\x00\
            W\x02\x04\x01\x00\x00\x00\x00\x00\x00\
            R\x00\x0A\x00\x00\x01\x03\x46\x80\x00\x01\x7E\xDA\x59\
            W\x00\x00\x01\x00\x00\x02\x00\x00\x01\x0A\x00\
            W\x00\x00\x01\x00\x00\x02\x00\x00\x01\x09\x00\
            W\x00\x01\x01\x00\x00\x02\x00\x00\x01\x0A\x00\
            W\x01\x02\x01\x00\x00\x02\x00\x00\x00\x0B\x00\
            W\x01\x04\x01\x00\x00\x02\x00\x80\x00\x0A\x00\
            P\x09\x00\x01\x20\x01\x01\xA7\xC0\x3B\xD0\x8F\
            P\x02\x00\x00\x20\
            P\x00\x00\
            F\x02\x00\x00\
            E\x00\x01\x08\x00\x20\x01\x01\xA7\xC0\xD0\x5E\xEA\x0C\x00\
            E\x00\x03\x08\x00\x20\x01\x01\xA7\xC0\xD0\x5E\xEA\x0B\x00\
            E\x00\x0F\x08\x00\x20\x01\x01\xA7\xC0\xD0\x5E\xEA\x0D\x00\
            E\x00\x0F\x08\x00\x20\x01\x01\xA7\xC0\xD0\x5E\xEA\x02\x00\
            E\x00\x10\x08\x00\x20\x01\x01\xA7\xC0\xD0\x5E\xEA\x01\x00\
            E\x01\x00\x08\x00\x20\x01\x01\xA7\xC0\xD0\x5E\xEA\x00\x00\
            E\x02\xFF\x00\x00\x00\x00";
        let lines = [
            "checksum 0 7961021",
            "read 0 0 0 1 0 0 1 0 1695 0 - 0 0",
            "read 8 - 3920015 13655786",
            "write 0 8 200101a7c0d05eeaa5a5",
            "write 13 0 a5a5",
            "write 1 0 -",
            "read 0 0 0 0 0 0 1 1 1306 0 0001 0 0",
            "write 26 0 a5a5a5a5a5a5a5a5a5a5",
            "write 26 0 a5a5a5a5a5a5a5a5a5",
            "write 12 0 a5a5a5a5a5a5a5a5a5a5",
            "write 0 10 40010346800000abcaafa5",
            "write 0 10 2001034680800056fe1f",
            "accepted 1 0 0",
            "refused 2",
            "refused 1",
            "checksum 1 0",
            "encode 0 84 62080601a9ec0b425eba90a5 0 0",
            "encode 0 86 188201806a7b02d097aea4 0 0",
            "encode 0 98 000188201806a7b02d097aea40 0 0",
            "encode 25 0 a5a5 0 0",
            "encode 24 0 a5 0 0",
            "encode 8 0 - 13655786 3920015",
            "encode 1 0 - 0 0",
        ];
        assert_eq!(text(script), lines.join("\n") + "\n");
    }

    /// Settings that are in range, their lowest values, and a slot that opens with them.
    const SHEET: [u8; 45] = [
        0, 0, 0, 0, 0, 0, 0, 0, 0, 0, 0, 0, 2, 0, 0, 0, 0, 0, 0, 0, 0, 0, 0, 0, 0, 0, 0, 0, 0, 0, 0, 0, 0, 0, 0, 0, 0,
        0, 0, 0, 2, 0, 0, 0, 1,
    ];

    /// 257, and the last two of all numbers.
    const MARKS: [&[u8]; 3] = [&[1, 1, 0, 0], &[254, 255, 255, 255], &[255; 4]];

    #[test]
    fn slot_lines_by_hand() {
        let opening = [b"S", &SHEET[..], b"\x01\x01\x00\x00", MARKS[0]].concat();
        let refused = [b"S", &SHEET[..], b"\x01\x00\x08\x00", MARKS[1]].concat();
        let out_of_range = [b"S", &[0; 45][..], b"\x02\x00\x00\xFF", MARKS[2]].concat();
        let frame = b"A\x08\x00\x20\x01\x01\xA7\xC0\x3B\xD0\x8FD";
        let events = [b"DXD", &frame[..], b"BDA\x00\x00D", frame, frame].concat();
        let script = [b"DX", &opening[..], &events, &refused, b"D", &opening, &out_of_range, b"BD"].concat();
        let zeros = "status 0 0 0 0 0 0 0 0 0 0 0 0 0 0 0 0 0 0 0 0 0 0 0 0 0 0";
        let zero_clock = "clock 0 0 0 0 0 0 0 0 0 0 0 0 0 0 0 0 0 EVEN 0 ODD 0 0 EVEN ODD";
        let lines = [
            zero_clock,
            zeros,
            "event 23",
            "slot 0 0",
            zero_clock,
            "status 0 0 0 2 0 0 0 0 0 0 2 1 1 1 0 0 0 0 0 0 0 0 0 257 0 0",
            "event 0",
            zero_clock,
            "status 0 0 0 2 0 0 0 0 0 0 2 1 1 1 0 32 0 0 0 0 0 0 0 257 0 0",
            "event 0",
            zero_clock,
            "status 0 0 0 2 0 0 0 0 0 0 2 1 1 1 0 56 0 1 4 1 0 1695 0 257 0 0",
            "event 0",
            zero_clock,
            "status 0 0 0 2 0 0 0 0 0 0 2 1 1 1 0 60 0 1 4 1 0 1695 0 257 0 0",
            "event 0",
            zero_clock,
            "status 0 0 0 2 0 0 0 0 0 0 2 1 1 1 0 61 0 1 4 1 0 1695 0 257 0 0",
            "event 0",
            zero_clock,
            "status 0 0 0 2 0 0 0 0 0 0 2 1 1 1 0 63 6 1 4 1 0 1695 0 257 0 0",
            "event 0",
            zero_clock,
            "status 0 0 0 2 0 0 0 0 0 0 2 1 1 1 0 63 6 1 4 1 0 1695 0 257 0 0",
            "slot 9 0",
            zero_clock,
            zeros,
            "slot 0 0",
            "slot 17 4",
            "event 23",
            zero_clock,
            zeros,
        ];
        assert_eq!(text(&script), lines.join("\n") + "\n");
    }

    #[test]
    fn clock_lines_by_hand() {
        let out_of_range = [b"L", &[0; 45][..], MARKS[1]].concat();
        let load = [b"L", &SHEET[..], MARKS[2]].concat();
        let times = b"M\x09\x00\x00\x00\x02\x00\x00\x00";
        let script = [&load[..], b"DC\x00\x00O\x40O\x3FO\x00", times, b"C\x02\x00C\xFF\x01D", &out_of_range, b"O\x00D"];
        let zeros = "status 0 0 0 0 0 0 0 0 0 0 0 0 0 0 0 0 0 0 0 0 0 0 0 0 0 0";
        let lines = [
            "load 0 0",
            "clock 0 0 0 2 0 0 0 0 0 0 2 1 0 0 0 0 0 EVEN 0 ODD 0 4294967295 EVEN ODD",
            zeros,
            "close 18 0 0 0 0 0 0 0 0",
            "open 11",
            "open 0",
            "open 19",
            "measure 23 0",
            "close 21 0 0 0 0 0 0 0 0",
            "close 0 0 0 1 1 0 0 0 4294967295",
            "clock 0 0 0 2 0 0 0 0 0 0 2 1 0 0 1 63 0 EVEN 0 ODD 0 4294967295 EVEN ODD",
            zeros,
            "load 17 4",
            "open 23",
            "clock 0 0 0 0 0 0 0 0 0 0 0 0 0 0 0 0 0 EVEN 0 ODD 0 0 EVEN ODD",
            zeros,
        ];
        assert_eq!(text(&script.concat()), lines.join("\n") + "\n");
    }

    /// 02 C-17: a sheet with mark 257, and a status with the last mark of all.
    #[test]
    fn loaded_marks_by_hand() {
        let load = [b"L", &SHEET[..], MARKS[0]].concat();
        // In slot 1 on B a sync frame of ID 1 is kept, whose header checksum is 861.
        let status = b"\x01\x01\x00\x04\x10\x00\x01\x0C\x01\x00\x00\x5D\x03\x04";
        let status = [b"T", &SHEET[..], status, MARKS[2], &[0; 8]].concat();
        let script = [&load[..], &status, b"O\x04M\x09\x00\x00\x00\x02\x00\x00\x00DC\x00\x02C\x00\x00", &load, b"D"];
        let shown = "status 0 0 0 2 0 0 0 0 0 0 2 1 1 1 4 16 0 1 12 1 0 861 4 4294967295 0 0";
        let lines = [
            "load 0 0",
            "status put",
            "open 0",
            "measure 0 7",
            "clock 0 0 0 2 0 0 0 0 0 0 2 1 1 4 0 0 0 EVEN 1 1 2 0 7 ODD 0 257 EVEN 0 257 ODD",
            shown,
            "close 21 0 0 0 0 0 0 0 0",
            "close 0 0 0 0 0 1 0 1 257",
            "load 0 0",
            "clock 0 0 0 2 0 0 0 0 0 0 2 1 0 0 0 0 0 EVEN 0 ODD 0 257 EVEN ODD",
            shown,
        ];
        assert_eq!(text(&script.concat()), lines.join("\n") + "\n");
    }

    /// 02 C-17: an ID in the even list, seen on both channels, and one in the odd list, seen on B. Their marks are 257 but
    /// for one at most; those that nobody looks at are others.
    #[test]
    fn put_marks_by_hand() {
        let put = |pairs: [&[u8]; 3]| {
            let even = b"\x01\x04\x00\x00\x00\x00\x00\x00\x01\x01\x00\x03\x05\x00\x00\x00\xFF\xFF\xFF\xFF";
            let odd = b"\x01\x02\x00\x02\x00\x00\x00\x00\x09\x00\x00\x00";
            let rows = [&SHEET[..], even, &[0; 14 * 11], odd, &[0; 14 * 11]].concat();
            let [on_a, on_b, of_odd] = pairs;
            let marks = [MARKS[0], on_a, on_b, &[7; 14 * 8], &[8; 4], of_odd, &[9; 14 * 8]].concat();
            [b"K", &rows[..], &marks, b"DC\x00\x00"].concat()
        };
        let clock = "clock 0 0 0 2 0 0 0 0 0 0 2 1 1 4 0 0 0 EVEN 1 1 3 5 -1 ODD 1 2 2 0 9 257 EVEN";
        let cases = [
            ([0, 0, 0], "257 257 ODD 0 257", "close 0 0 0 0 0 0 0 1 257"),
            ([1, 0, 0], "4294967294 257 ODD 0 257", "close 23 0 0 0 0 0 0 0 0"),
            ([0, 1, 0], "257 4294967294 ODD 0 257", "close 23 0 0 0 0 0 0 0 0"),
            ([0, 0, 1], "257 257 ODD 0 4294967294", "close 23 0 0 0 0 0 0 0 0"),
        ];
        let zeros = format!("status{}", " 0".repeat(26));
        for (marks, pairs, closed) in cases {
            let script = put(marks.map(|mark: usize| MARKS[mark]));
            assert_eq!(text(&script), format!("clock put\n{clock} {pairs}\n{zeros}\n{closed}\n"));
        }
    }

    /// 02 C-18, in slot 1 on B: the first frame of A, and with its sync bit turned over, in either order; no bytes before
    /// both; and B's own one before and behind. The first syntax error's checksums stay.
    #[test]
    fn kept_checksums_by_hand() {
        let opening = [b"S", &SHEET[..], b"\x01\x01\x00\x00", MARKS[0]].concat();
        let strange = &b"A\x08\x00\x20\x01\x01\xA7\xC0\xD0\x5E\xEA"[..];
        let header = &b"A\x08\x00\x30\x01\x01\xA7\xC0\xD0\x5E\xEA"[..];
        let good = &b"A\x08\x00\x20\x01\x01\xA7\xC0\x3B\xD0\x8F"[..];
        let cases: [(&[&[u8]], &str); 8] = [
            (&[good], "16 0 1 4 1 0 1695 0 257 0 0"),
            (&[strange], "1 0 0 0 0 0 0 0 257 13655786 3920015"),
            (&[header], "1 0 0 0 0 0 0 0 257 1695 861"),
            (&[strange, header], "1 0 0 0 0 0 0 0 257 13655786 3920015"),
            (&[header, strange], "1 0 0 0 0 0 0 0 257 1695 861"),
            (&[b"A\x00\x00", header, strange], "1 0 0 0 0 0 0 0 257 0 0"),
            (&[strange, good], "17 0 1 4 1 0 1695 0 257 13655786 3920015"),
            (&[good, header, good], "19 6 1 4 1 0 1695 0 257 1695 861"),
        ];
        for (arrivals, shown) in cases {
            let played = text(&[&opening[..], &arrivals.concat(), b"D"].concat());
            let line = format!("status 0 0 0 2 0 0 0 0 0 0 2 1 1 1 0 {shown}");
            assert_eq!(played.lines().last(), Some(&line[..]));
        }
    }

    /// 02 C-18: found 0x80000000 and expected 1, each alone and both, in a status of slot 1 on A without any mark, and with
    /// "syntax error", which a later one leaves as it is.
    #[test]
    fn put_checksums_by_hand() {
        let (found, expected, none) = (&[0, 0, 0, 0x80][..], &[1, 0, 0, 0][..], &[0; 4][..]);
        for (checksums, shown) in
            [([found, none], "2147483648 0"), ([none, expected], "0 1"), ([found, expected], "2147483648 1")]
        {
            for (mark, number) in [(0, 23), (1, 0)] {
                let status = [&[0, 1, 0, 0, mark], &[0; 9][..]].concat();
                let put = [b"T", &SHEET[..], &status, MARKS[0], &checksums.concat()].concat();
                let played = text(&[&put[..], b"A\x08\x00\x30\x01\x01\xA7\xC0\xD0\x5E\xEAD"].concat());
                let lines: Vec<&str> = played.lines().collect();
                assert_eq!(lines[..2], ["status put", &format!("event {number}")]);
                let line = format!("status 0 0 0 2 0 0 0 0 0 0 2 1 0 1 0 {mark} 0 0 0 0 0 0 0 257 {shown}");
                assert_eq!(lines[3], line);
            }
        }
    }

    /// 02 C-18: a player that knows F, R and P alone plays those as ever, and no other letter.
    #[test]
    fn other_letters_are_unknown_to_a_player_of_frames() {
        let frame = b"\x08\x00\x20\x01\x01\xA7\xC0\xD0\x5E\xEA";
        let known = [b"F\x00\x00\x00P\x00\x00R\x00", &frame[..]].concat();
        let lines = "checksum 0 16702650\nrefused 1\nread 0 0 0 1 0 0 1 0 1695 0 - 0 0\n";
        assert_eq!(text_by(Letters::Frames, &known), lines);
        for letter in "WESABXTLOMCKDHYVZQf".bytes() {
            let script = [&known[..], &[letter], frame, &known].concat();
            assert_eq!(text_by(Letters::Frames, &script), format!("{lines}script error at 3\n"));
        }
    }

    #[test]
    fn an_empty_script_gives_nothing() {
        assert_eq!(text(b""), "");
        assert_eq!(text_by(Letters::Frames, b""), "");
    }

    #[test]
    fn nothing_follows_a_script_error() {
        assert_eq!(text(b"F\x02\x00\x00?F\x02\x00\x00"), "checksum 1 0\nscript error at 1\n");
        assert_eq!(text(b"R\x00\x59\x02"), "script error at 0\n");
        assert_eq!(text(b"W\x00\x04\x01\x00\x00\x00\x00\x59\x02"), "script error at 0\n");
        assert_eq!(text(b"E\x00\x01\x00\x00\x59\x02"), "script error at 0\n");
    }
}
