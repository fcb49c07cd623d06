//! The functions of the static library `crates/sdh_trials`. A slice crosses as a pointer and then a length.

use crate::memory::refusing;

unsafe extern "C" {
    fn sdh_trials_call(
        command: u8,
        document: *const u8,
        document_len: usize,
        piece: usize,
        read: u32,
        write: u32,
        kind: u8,
        number: u32,
        text: *mut u8,
        text_len: usize,
        told: *mut u64,
        told_len: usize,
    ) -> u8;
    fn sdh_trials_told(
        document: *const u8,
        document_len: usize,
        is_sixteen: bool,
        arrivals: *const u8,
        arrivals_len: usize,
        text: *mut u8,
        text_len: usize,
        sent: *mut u8,
        sent_len: usize,
        told: *mut u64,
        told_len: usize,
    ) -> u8;
}

/// The commands, by their numbers.
#[derive(Clone, Copy, Debug, PartialEq, Eq)]
pub enum Command {
    Run,
    Check,
    Drop,
    Nothing,
}

/// The kinds of calls of a plant, by their numbers.
#[derive(Clone, Copy, Debug, PartialEq, Eq)]
pub enum Kind {
    Prepare,
    Apply,
    Send,
    Receive,
}

pub const KINDS: [Kind; 4] = [Kind::Prepare, Kind::Apply, Kind::Send, Kind::Receive];

/// What is run, in pieces of a length, and which calls fail, counted from 1; 0 for none.
#[derive(Clone, Copy, Debug)]
pub struct Trial<'a> {
    pub command: Command,
    pub document: &'a str,
    pub piece: usize,
    pub read: u32,
    pub write: u32,
    pub kind: Kind,
    pub number: u32,
    pub allocation: u64,
}

pub fn sound(command: Command, document: &str) -> Trial<'_> {
    Trial {
        command,
        document,
        piece: 4096,
        read: 0,
        write: 0,
        kind: Kind::Prepare,
        number: 0,
        allocation: 0,
    }
}

/// What came of it: the calls of the plant by their kinds, and how many allocations there were.
#[derive(Debug)]
pub struct Came {
    pub status: u8,
    pub text: String,
    pub calls: [u64; 4],
    pub allocations: u64,
}

// What stands for a status where there was no memory for the objects that are handed in.
pub const NOT_CALLED: u8 = 255;

const ROOM: usize = 1 << 20;

pub fn call(trial: Trial<'_>) -> Came {
    assert!(trial.piece > 0);
    let mut text = vec![0; ROOM];
    let mut told = [0; 5];
    let document = trial.document.as_bytes();
    let (status, allocations) = refusing(trial.allocation, || {
        // SAFETY: each pointer and length are of one slice, and the library requires a piece and room for five numbers.
        unsafe {
            sdh_trials_call(
                trial.command as u8,
                document.as_ptr(),
                document.len(),
                trial.piece,
                trial.read,
                trial.write,
                trial.kind as u8,
                trial.number,
                text.as_mut_ptr(),
                text.len(),
                told.as_mut_ptr(),
                told.len(),
            )
        }
    });
    text.truncate(told[0] as usize);
    Came {
        status,
        text: String::from_utf8(text).expect("a text"),
        calls: [told[1], told[2], told[3], told[4]],
        allocations,
    }
}

/// What came of a plan over told arrivals, each of which is a byte, 0 where nothing comes, and the bytes of a frame.
#[derive(PartialEq, Eq)]
pub struct Told {
    pub status: u8,
    pub text: String,
    pub sent: Vec<u8>,
}

/// Runs a plan over told arrivals, with room for a number of bytes of frames sent.
pub fn run_told(document: &str, n: usize, arrivals: &[u8], room: usize) -> Told {
    assert!(n == 4 || n == 16);
    let mut text = vec![0; ROOM];
    let mut sent = vec![0; room];
    let mut told = [0; 2];
    // SAFETY: each pointer and length are of one slice, and the library requires room for two numbers.
    let status = unsafe {
        sdh_trials_told(
            document.as_ptr(),
            document.len(),
            n == 16,
            arrivals.as_ptr(),
            arrivals.len(),
            text.as_mut_ptr(),
            text.len(),
            sent.as_mut_ptr(),
            sent.len(),
            told.as_mut_ptr(),
            told.len(),
        )
    };
    assert!(status != NOT_CALLED, "no memory");
    assert!(told[1] as usize <= room, "{} bytes were sent", told[1]);
    text.truncate(told[0] as usize);
    sent.truncate(told[1] as usize);
    Told {
        status,
        text: String::from_utf8(text).expect("a text"),
        sent,
    }
}
