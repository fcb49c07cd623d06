//! A ring of three nodes from Rust, each joined to its neighbours: what leaves a node in a round comes to its neighbour
//! in the next one. The span between nodes 2 and 3 is cut in round 20. Prints the state of each node whenever it changes,
//! and what the ports deliver in the last round. LIBRARY.md has the commands that build it and run it.

use std::ffi::{c_char, c_int, c_uint, CStr};
use std::io::Read;

const WEST: c_int = 0;
const EAST: c_int = 1;

#[repr(C)]
struct Raw {
    _private: [u8; 0],
}

// As library/sdhnode.h has them; what is not called here is left out.
unsafe extern "C" {
    fn sdhnode_make(plan: *const c_char, length: usize, id: c_uint, why: *mut c_char, room: usize) -> *mut Raw;
    fn sdhnode_free(node: *mut Raw);
    fn sdhnode_frame_size(node: *const Raw) -> usize;
    fn sdhnode_receive(node: *mut Raw, side: c_int, frame: *const u8);
    fn sdhnode_dark(node: *mut Raw, side: c_int);
    fn sdhnode_round(node: *mut Raw) -> c_int;
    fn sdhnode_frame(node: *const Raw, side: c_int) -> *const u8;
    fn sdhnode_lines(node: *const Raw) -> *const c_char;
}

/// What came on a side of a node.
enum Came<'a> {
    Nothing,
    Dark,
    Frame(&'a [u8]),
}

/// A node, which is freed when it is dropped.
struct Node(*mut Raw);

impl Node {
    /// Makes a node of a plan, or says why there is none.
    fn new(plan: &str, id: u32) -> Result<Node, String> {
        let mut why = [0 as c_char; 64];
        // SAFETY: each pointer is that of a slice of the length beside it.
        let raw = unsafe { sdhnode_make(plan.as_ptr().cast(), plan.len(), id, why.as_mut_ptr(), why.len()) };
        if raw.is_null() {
            // SAFETY: the library ends what it says with a zero.
            return Err(unsafe { CStr::from_ptr(why.as_ptr()) }.to_string_lossy().into_owned());
        }
        Ok(Node(raw))
    }

    /// Keeps for the next round what came on a side.
    fn receive(&mut self, side: c_int, came: Came) {
        // SAFETY: the node is there, the side is one of the two, and a frame has the length of one.
        unsafe {
            match came {
                Came::Nothing => {}
                Came::Dark => sdhnode_dark(self.0, side),
                Came::Frame(bytes) => {
                    assert_eq!(bytes.len(), sdhnode_frame_size(self.0));
                    sdhnode_receive(self.0, side, bytes.as_ptr());
                }
            }
        }
    }

    /// Runs a round; returns the two frames that leave, and the lines.
    fn round(&mut self) -> ([Vec<u8>; 2], String) {
        // SAFETY: a round has run when the frames are looked at, and each has the length that the library gives.
        unsafe {
            assert_eq!(sdhnode_round(self.0), 0);
            let size = sdhnode_frame_size(self.0);
            let frame = |side| std::slice::from_raw_parts(sdhnode_frame(self.0, side), size).to_vec();
            ([frame(WEST), frame(EAST)], CStr::from_ptr(sdhnode_lines(self.0)).to_string_lossy().into_owned())
        }
    }
}

impl Drop for Node {
    fn drop(&mut self) {
        // SAFETY: nobody else has the pointer.
        unsafe { sdhnode_free(self.0) }
    }
}

/// The fourth to seventh word of a line `round R node ID STATE far F ..`: node, state and far end.
fn state(lines: &str) -> String {
    lines.split(' ').skip(3).take(4).collect::<Vec<_>>().join(" ")
}

fn main() -> Result<(), String> {
    let mut plan = String::new();
    std::io::stdin().read_to_string(&mut plan).map_err(|error| error.to_string())?;
    let mut nodes = (1..=3).map(|id| Node::new(&plan, id)).collect::<Result<Vec<_>, _>>()?;
    let mut sent: Vec<[Vec<u8>; 2]> = Vec::new();
    let mut shown = vec![String::new(); 3];
    for round in 0..200 {
        let answers: Vec<_> = (0..3)
            .map(|at| {
                for (side, from) in [(WEST, (at + 2) % 3), (EAST, (at + 1) % 3)] {
                    // Node 2 is at position 1, and its span to the east leads to position 2.
                    let is_cut = round > 20 && (at + from) == 3;
                    let came = match sent.get(from) {
                        None => Came::Nothing,
                        Some(_) if is_cut => Came::Dark,
                        Some(frames) => Came::Frame(&frames[(1 - side) as usize]),
                    };
                    nodes[at].receive(side, came);
                }
                nodes[at].round()
            })
            .collect();
        for (before, (_, lines)) in shown.iter_mut().zip(&answers) {
            if state(before) != state(lines) {
                println!("round {round}: node {}", state(lines));
            }
            before.clone_from(lines);
        }
        sent = answers.into_iter().map(|(frames, _)| frames).collect();
    }
    for lines in &shown {
        lines.lines().skip(1).for_each(|line| println!("{line}"));
    }
    Ok(())
}
