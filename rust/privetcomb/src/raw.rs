//! The boundary as it is: the library's three functions with document 01's numbers, made safe to call. The only unsafe code.

/// What the check returns: document 01's number and place, the root's reference and the gate count.
#[repr(C)]
#[derive(Clone, Copy, Debug, PartialEq, Eq)]
pub struct Answer {
    pub number: usize,
    pub place: usize,
    pub root: usize,
    pub count: usize,
}

/// What evaluating returns: document 01's number and place, and the root's value, 0 or 1.
#[repr(C)]
#[derive(Clone, Copy, Debug, PartialEq, Eq)]
pub struct Evaluated {
    pub number: usize,
    pub place: usize,
    pub value: usize,
}

/// Where a record stands in a table: at a start, so many bytes; 0 and 0 for the empty part.
#[repr(C)]
#[derive(Clone, Copy, Debug, PartialEq, Eq)]
pub struct Part {
    pub start: usize,
    pub length: usize,
}

// The functions of include/privetcomb.h; a table is passed as pointer and length.
extern "C" {
    fn privetcomb_check(
        a: *const u8,
        a_length: usize,
        b: *const u8,
        b_length: usize,
        steps: *const u8,
        steps_length: usize,
        work: *mut u8,
        work_length: usize,
        gates: *mut u8,
        gates_length: usize,
    ) -> Answer;

    fn privetcomb_evaluate(
        assignment: *const u8,
        assignment_length: usize,
        table: *const u8,
        table_length: usize,
        root: usize,
    ) -> Evaluated;

    fn privetcomb_record(table: *const u8, table_length: usize, r: usize) -> Part;
}

/// Checks the refutation, leaves its resolvents in the work table and its circuit in the gate table.
pub fn check(a: &[u8], b: &[u8], steps: &[u8], work: &mut [u8], gates: &mut [u8]) -> Answer {
    // SAFETY: declared as in include/privetcomb.h. Each pointer is that of a slice: not null even
    // where it is empty, with its length (never above isize::MAX), all bytes set. A, B and steps are
    // borrowed, so nothing writes them during the call; work and gates are borrowed mutably, so they
    // overlap no other table and nothing else reads or writes them. The library keeps no pointer.
    unsafe {
        privetcomb_check(
            a.as_ptr(),
            a.len(),
            b.as_ptr(),
            b.len(),
            steps.as_ptr(),
            steps.len(),
            work.as_mut_ptr(),
            work.len(),
            gates.as_mut_ptr(),
            gates.len(),
        )
    }
}

/// Evaluates the gate table at the root reference under the assignment; writes nothing.
pub fn evaluate(assignment: &[u8], table: &[u8], root: usize) -> Evaluated {
    // SAFETY: declared as in include/privetcomb.h. Both pointers are those of slices: not null even
    // where they are empty, with their lengths (never above isize::MAX), all bytes set. Both are
    // borrowed, so nothing writes them during the call; the library only reads them and keeps no
    // pointer.
    unsafe {
        privetcomb_evaluate(
            assignment.as_ptr(),
            assignment.len(),
            table.as_ptr(),
            table.len(),
            root,
        )
    }
}

/// Where record r stands in the table.
pub fn record(table: &[u8], r: usize) -> Part {
    // SAFETY: declared as in include/privetcomb.h. The pointer is that of a slice: not null even
    // where it is empty, with its length (never above isize::MAX), all bytes set. It is borrowed, so
    // nothing writes it during the call; the library only reads it and keeps no pointer. Any r may
    // be asked for.
    unsafe { privetcomb_record(table.as_ptr(), table.len(), r) }
}
