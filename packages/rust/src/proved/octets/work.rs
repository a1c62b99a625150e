// Made from crates/octets/src/work.rt by tools/erase: not to be edited.
//! Work in steps, and the streams that mask bytes. A hash whose steps a stream does in its own loop is interleaved with it.

/// Work in small steps. Other code does a step wherever the processor has room for one. It is `Copy` so that a loop can step
/// a local copy, which stays in registers.
pub trait Work: Copy {
    /// Does one step unless at most `reserve` are left: a loop with a reserve at every second place spreads the steps
    /// evenly. No contract counts steps: the owner of the work does the steps that are left.
    fn step(&mut self, reserve: usize);
}

/// Work without steps. Its step still compiles to a branch, as that of other work does, and LLVM can't tell that the branch is
/// never taken: so the code before a step stays apart from the code after it.
#[derive(Clone, Copy)]
pub struct Idle<'a> {
    // The work after the next step: there never is one.
    next: Option<&'a Idle<'a>>,
}

impl<'a> Idle<'a> {
    /// Makes work without steps.
    pub fn new() -> Idle<'a> {
        Idle { next: None }
    }
}

impl<'a> Work for Idle<'a> {
    #[inline(always)]
    fn step(&mut self, _reserve: usize) {
        if let Some(next) = self.next {
            *self = *next;
        }
    }
}

/// A hash that takes in the blocks of a text in steps, 16 bytes in each. Its caller hands the bytes on, and may change those
/// that were taken in.
pub trait BlockWork: Copy {
    /// Takes in the first block of `left`, unless it has at most `reserve` blocks, and returns the bytes after the block.
    fn step<'t>(&mut self, left: &'t [u8], reserve: usize) -> &'t [u8];

    /// Takes in all blocks of `left`, of which there may be none.
    fn take_all(&mut self, left: &[u8]) {
        let mut rest = left;
        while !rest.is_empty() {
            rest = self.step(rest, 0);
        }
    }
}

/// A hash with the bytes that it takes in next: work for other code.
#[derive(Clone, Copy)]
pub struct Interleaved<'t, W> {
    pub hash: W,
    pub left: &'t [u8],
}

impl<'t, W: BlockWork> Work for Interleaved<'t, W> {
    #[inline(always)]
    fn step(&mut self, reserve: usize) {
        self.left = self.hash.step(self.left, reserve);
    }
}

/// A stream of bytes that is XORed into pieces of any length.
pub trait Stream {
    /// XORs the next bytes of the stream into `bytes`.
    fn apply_next(&mut self, bytes: &mut [u8]);
}
