//! The entries for a machine that cannot link them: the library is x86-64 code, so a program of that kind calls it
//! (`../far.c`, which says what goes over the pipes), started once by way of tools/x86.

use crate::collecting::{MOST, STATE};
use std::io::{Error, Read, Result, Write};
use std::process::{Child, ChildStdin, ChildStdout, Command, Stdio};
use std::sync::{Mutex, OnceLock};

/// Given for a call that has no answer or wrote where it may not. No entry answers this, so it is a difference like
/// any other, and is reported with its input.
pub const NO_ANSWER: u32 = u32::MAX;

const ROOT: &str = concat!(env!("CARGO_MANIFEST_DIR"), "/../..");

pub fn read(ca: u32, ioa: u32, plan: &[u8], file: &[u8], out: &mut [u8]) -> u32 {
    call(request(0, [ca, ioa], [plan, file, out]), &mut [out])
}

pub fn normalise(ca: u32, ioa: u32, plan: &[u8], file: &[u8], out: &mut [u8]) -> u32 {
    call(request(1, [ca, ioa], [plan, file, out]), &mut [out])
}

pub fn collect(unit: &[u8], state: &mut [u8; STATE], file: &mut [u8; MOST]) -> u32 {
    call(request(2, [0, 0], [unit, &state[..], &file[..]]), &mut [&mut state[..], &mut file[..]])
}

fn call(request: Vec<u8>, written: &mut [&mut [u8]]) -> u32 {
    static PROGRAM: OnceLock<Mutex<Program>> = OnceLock::new();
    let mut program = PROGRAM.get_or_init(|| Mutex::new(started())).lock().expect("no call panics");
    program.far.call(&request, written).unwrap_or_else(|error| {
        eprintln!("far side: {error}");
        NO_ANSWER
    })
}

/// It ends with this program, when its input does.
struct Program {
    _child: Child,
    far: Far<ChildStdin, ChildStdout>,
}

fn started() -> Program {
    let mut command = Command::new(format!("{ROOT}/tools/x86"));
    command.arg("run").arg(format!("{ROOT}/target/host/far")).stdin(Stdio::piped()).stdout(Stdio::piped());
    let mut child = command.spawn().expect("tools/x86 is there");
    let far = Far { to: child.stdin.take().expect("a pipe"), from: child.stdout.take().expect("a pipe") };
    Program { _child: child, far }
}

struct Far<To, From> {
    to: To,
    from: From,
}

impl<To: Write, From: Read> Far<To, From> {
    fn call(&mut self, request: &[u8], written: &mut [&mut [u8]]) -> Result<u32> {
        self.to.write_all(request)?;
        let [answer, harm] = [self.number()?, self.number()?];
        for slice in written {
            self.from.read_exact(slice)?;
        }
        match harm {
            0 => Ok(answer),
            1 => Err(Error::other("the library changed what it may only read")),
            _ => Err(Error::other("the library changed a byte outside of its slices")),
        }
    }

    fn number(&mut self) -> Result<u32> {
        let mut bytes = [0; 4];
        self.from.read_exact(&mut bytes)?;
        Ok(u32::from_le_bytes(bytes))
    }
}

/// Made whole and written at once: each write wakes the other side.
fn request(entry: u32, [ca, ioa]: [u32; 2], slices: [&[u8]; 3]) -> Vec<u8> {
    let lengths = slices.map(|slice| u32::try_from(slice.len()).expect("a length of 32 bits"));
    let numbers = [[entry, ca, ioa], lengths].concat();
    let numbers: Vec<u8> = numbers.into_iter().flat_map(u32::to_le_bytes).collect();
    [&numbers, slices.concat().as_slice()].concat()
}

/// What is sent, and that an answer is not taken from a side that stepped outside or broke off.
#[cfg(test)]
mod tests {
    use super::*;

    fn asked(answer: &[u8]) -> (Vec<u8>, Result<u32>, [u8; 2]) {
        let (mut sent, mut out) = (Vec::new(), *b"ab");
        let request = request(1, [7, 300], [b"plan", b"f", &out]);
        let result = Far { to: &mut sent, from: answer }.call(&request, &mut [&mut out]);
        (sent, result, out)
    }

    #[test]
    fn the_answer_and_the_whole_output_are_taken() {
        let (sent, result, out) = asked(b"\x01\0\0\0\0\0\0\0xb");
        assert_eq!(sent, b"\x01\0\0\0\x07\0\0\0\x2c\x01\0\0\x04\0\0\0\x01\0\0\0\x02\0\0\0planfab");
        assert_eq!((result.unwrap(), out), (1, *b"xb"));
    }

    #[test]
    fn two_outputs_are_taken_one_after_the_other() {
        let (mut state, mut file) = (*b"ab", *b"cde");
        let answer = b"\0\0\x28\0\0\0\0\0ABCDE";
        let result = Far { to: Vec::new(), from: &answer[..] }.call(b"", &mut [&mut state[..], &mut file[..]]);
        assert_eq!((result.unwrap(), state, file), (40 << 16, *b"AB", *b"CDE"));
    }

    #[test]
    fn a_step_outside_is_no_answer() {
        assert!(asked(b"\x01\0\0\0\x01\0\0\0xb").1.is_err());
        assert!(asked(b"\x01\0\0\0\x02\0\0\0xb").1.is_err());
    }

    #[test]
    fn an_end_is_no_answer() {
        assert!(asked(b"").1.is_err());
        assert!(asked(b"\x01\0\0\0\0\0\0\0x").1.is_err());
    }
}
