//! How much stack an operation uses. It runs on a stack of its own, which is painted before and scanned after.
use crate::library::{ask, exercise, find_name, graft, judge, length, name_index, read_term, restate, Lent};
use oracle::{answer::Question, generate::texts::Text, grafts::Graft, restate::Given};
use std::{arch::asm, ffi::c_void};

const STACK_BYTES: usize = 4 << 20;
const PAINT: u64 = 0x5ca1_ab1e_0ddb_a115;

/// What is asked: nothing, a question about a sheet, the length of its answer, a judgement or a restatement of it, the term of a text, a
/// graft, an exercise by its ordinal, the index of a sheet's names, or a name by it.
enum Asked<'a> {
    Nothing,
    Question(Question, &'a [u8]),
    Length(Question, &'a [u8]),
    Judgement(&'a [u8], usize),
    Restatement(&'a [u8], Given),
    Reading(&'a Text),
    Graft(&'a Graft),
    Exercise(usize),
    Index(&'a [u8]),
    Name(&'a [u8], &'a [u8]),
}

/// What to run on the other stack.
struct Call<'a> {
    asked: Asked<'a>,
    lent: &'a mut Lent,
}

extern "C" fn run(call: *mut c_void) {
    // SAFETY: `Stack::touched` hands over a call that nobody else uses meanwhile.
    let call = unsafe { &mut *call.cast::<Call>() };
    // A refusal uses the stack as well as an answer.
    let _ = match call.asked {
        Asked::Nothing => Ok(0),
        Asked::Question(question, sheet) => ask(question, sheet, call.lent),
        Asked::Length(question, sheet) => length(question, sheet).unwrap_or(Ok(0)),
        Asked::Judgement(sheet, proposition) => judge(sheet, proposition).map(|_| 0),
        Asked::Restatement(sheet, given) => restate(sheet, given, call.lent),
        Asked::Reading(asked) => read_term(asked, call.lent).map(|_| 0),
        Asked::Graft(asked) => graft(asked, call.lent).map_err(|refused| refused.refusal),
        Asked::Exercise(ordinal) => exercise(ordinal, call.lent),
        Asked::Index(sheet) => name_index(sheet, call.lent).map(|_| 0),
        Asked::Name(sheet, name) => find_name(sheet, name, call.lent).map(|_| 0),
    };
}

/// # Safety
/// `top` is a multiple of 16, the memory below it is enough for `function`, and `function` does not unwind.
unsafe fn call_on(top: *mut u8, function: extern "C" fn(*mut c_void), argument: *mut c_void) {
    asm!(
        "mov r12, rsp",
        "mov rsp, {top}",
        "call {function}",
        "mov rsp, r12",
        top = in(reg) top,
        function = in(reg) function,
        in("rdi") argument,
        out("r12") _,
        clobber_abi("C"),
    );
}

pub struct Stack(Vec<u64>);

impl Stack {
    pub fn new() -> Self {
        Stack(vec![PAINT; STACK_BYTES / 8])
    }

    /// The bytes from the lowest that a call wrote to up to the top. They are painted again.
    fn touched(&mut self, call: &mut Call) -> usize {
        let end = self.0.as_mut_ptr_range().end as usize;
        let argument: *mut Call = call;
        // SAFETY: the top is rounded down to a multiple of 16, and the memory below it is this stack's own.
        unsafe { call_on((end & !15) as *mut u8, run, argument.cast()) };
        let lowest = self.0.iter().position(|word| *word != PAINT).unwrap_or(self.0.len());
        assert!(lowest > 0, "the whole stack was used");
        self.0[lowest..].fill(PAINT);
        8 * (self.0.len() - lowest)
    }

    /// The bytes of stack that the answer to a question takes, without those of the call itself.
    pub fn used(&mut self, question: Question, sheet: &[u8], lent: &mut Lent) -> usize {
        self.used_by(Asked::Question(question, sheet), lent)
    }

    /// The same of the length of the answer.
    pub fn used_by_length(&mut self, question: Question, sheet: &[u8], lent: &mut Lent) -> usize {
        self.used_by(Asked::Length(question, sheet), lent)
    }

    /// The same of a judgement.
    pub fn used_by_judgement(&mut self, sheet: &[u8], proposition: usize, lent: &mut Lent) -> usize {
        self.used_by(Asked::Judgement(sheet, proposition), lent)
    }

    /// The same of a restatement.
    pub fn used_by_restatement(&mut self, sheet: &[u8], given: Given, lent: &mut Lent) -> usize {
        self.used_by(Asked::Restatement(sheet, given), lent)
    }

    /// The same of a reading.
    pub fn used_by_reading(&mut self, asked: &Text, lent: &mut Lent) -> usize {
        self.used_by(Asked::Reading(asked), lent)
    }

    /// The same of a graft.
    pub fn used_by_graft(&mut self, asked: &Graft, lent: &mut Lent) -> usize {
        self.used_by(Asked::Graft(asked), lent)
    }

    /// The same of an exercise.
    pub fn used_by_exercise(&mut self, ordinal: usize, lent: &mut Lent) -> usize {
        self.used_by(Asked::Exercise(ordinal), lent)
    }

    /// The same of the index of a sheet's names, and of a name found by it.
    pub fn used_by_index(&mut self, sheet: &[u8], lent: &mut Lent) -> usize {
        self.used_by(Asked::Index(sheet), lent)
    }

    pub fn used_by_name(&mut self, sheet: &[u8], name: &[u8], lent: &mut Lent) -> usize {
        self.used_by(Asked::Name(sheet, name), lent)
    }

    fn used_by(&mut self, asked: Asked, lent: &mut Lent) -> usize {
        let call = self.touched(&mut Call { asked: Asked::Nothing, lent });
        self.touched(&mut Call { asked, lent }) - call
    }
}
