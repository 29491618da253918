//! How deep a call goes on the stack: it is filled with a pattern below, and what has changed afterwards is read.

use std::fs::File;
use std::hint::black_box;
use std::io::Result;
use std::os::unix::fs::FileExt;
use std::{ptr, thread};

const PATTERN: u8 = 0xa5;

/// How far down is looked, and how much stack the thread has: room for that and its own frames.
const DEPTH: usize = 64 * 1024;
const STACK: usize = 4 * DEPTH;

/// About where the frame of a function called here would begin.
#[inline(never)]
fn top() -> usize {
    let here = 0_u8;
    ptr::from_ref(black_box(&here)).addr()
}

/// Fills the stack below with the pattern, further down than is looked.
#[inline(never)]
fn fill() {
    // A byte not known beforehand: a constant array would not stand on the stack.
    let pattern = [black_box(PATTERN); DEPTH + 4096];
    black_box(&pattern);
}

/// How many bytes of stack the call changes, to within a few words.
pub fn depth(call: impl FnOnce() + Send) -> Result<usize> {
    thread::scope(|scope| {
        let measured = thread::Builder::new()
            .stack_size(STACK)
            .spawn_scoped(scope, || {
                // The stack is read through the process's memory file, once it is no frame any more.
                let memory = File::open("/proc/self/mem")?;
                let mut below = vec![0; DEPTH];
                let top = top();
                fill();
                call();
                memory.read_exact_at(&mut below, (top - DEPTH) as u64)?;
                let untouched = below.iter().take_while(|&&byte| byte == PATTERN).count();
                Ok(DEPTH - untouched)
            })?;
        measured.join().expect("the call returns")
    })
}
