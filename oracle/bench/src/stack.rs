//! How deep the stack of a call goes: the call runs on a painted one.

use crate::item::Item;
use calls::{
    kinyandoma_append, kinyandoma_measure, kinyandoma_render, kinyandoma_render_jobs, Answer, Job,
    Stream,
};
use model::shared::Shared;
#[cfg(target_arch = "x86_64")]
use std::arch::asm;

/// Bytes of the painted stack: far more than any call takes.
const SIZE: usize = 1 << 20;
const PAINT: u8 = 0xA5;
/// A stack begins at an address that this divides.
const ALIGNMENT: usize = 16;

/// The registers that arguments come in, and those arguments that stand on the stack. A call that takes fewer leaves the rest.
type Arguments = [usize; 9];
/// How many stand on the stack, with what fills them up to the alignment.
const ON_STACK: usize = 4;

/// What a call answers, and how many bytes below its caller it wrote to.
pub struct Taken {
    pub answer: Answer,
    pub bytes: usize,
}

pub fn measure(item: &Item) -> Taken {
    let (tree, text) = (&item.tree, &item.text);
    let arguments = [
        tree.as_ptr() as usize,
        tree.len(),
        text.as_ptr() as usize,
        text.len(),
        0,
        0,
        0,
        0,
        0,
    ];
    painted(kinyandoma_measure as *const () as usize, arguments)
}

pub fn render(item: &Item) -> Taken {
    let (tree, text) = (&item.tree, &item.text);
    let mut out = vec![0u8; item.expected.len()];
    let arguments = [
        tree.as_ptr() as usize,
        tree.len(),
        text.as_ptr() as usize,
        text.len(),
        out.as_mut_ptr() as usize,
        out.len(),
        0,
        0,
        0,
    ];
    painted(kinyandoma_render as *const () as usize, arguments)
}

/// All of them as jobs over one text.
pub fn jobs(items: &[Item]) -> Taken {
    let mut shared = Shared::default();
    let job = |item: &Item| {
        let place = shared.add(&item.tree, &item.text);
        Job::new(place.start as u64, place.len() as u64)
    };
    let mut jobs: Vec<Job> = items.iter().map(job).collect();
    let room = items.iter().map(|item| item.expected.len()).sum();
    let mut out = vec![0u8; room];
    let arguments = [
        0,
        jobs.as_mut_ptr() as usize,
        jobs.len(),
        shared.trees.as_ptr() as usize,
        shared.trees.len(),
        shared.text.as_ptr() as usize,
        shared.text.len(),
        out.as_mut_ptr() as usize,
        out.len(),
    ];
    painted(kinyandoma_render_jobs as *const () as usize, arguments)
}

/// One token to a fresh stream, with so much room.
pub fn append(token: u16, value: &[u8], room: usize) -> Taken {
    let mut stream = Stream::FRESH.record();
    let mut out = vec![0u8; room];
    let arguments = [
        stream.as_mut_ptr() as usize,
        stream.len(),
        out.as_mut_ptr() as usize,
        out.len(),
        usize::from(token),
        value.as_ptr() as usize,
        value.len(),
        0,
        0,
    ];
    painted(kinyandoma_append as *const () as usize, arguments)
}

/// The call on a stack of its own.
fn painted(function: usize, arguments: Arguments) -> Taken {
    let mut stack = vec![PAINT; SIZE];
    let start = stack.as_mut_ptr() as usize;
    let top = (start + SIZE) / ALIGNMENT * ALIGNMENT;
    // The function keeps to its arguments, and to the stack that it is given.
    let packed = unsafe { on_stack(top, function, arguments) };
    let lowest = stack.iter().position(|&byte| byte != PAINT);
    let lowest = lowest.expect("a return address at the least");
    assert!(lowest > 0, "the painted stack is too small");
    Taken {
        answer: Answer::unpacked(packed),
        bytes: below_arguments(top) - (start + lowest),
    }
}

/// Where the stack stands when a call begins: below its arguments there, and what fills them up to the alignment.
fn below_arguments(top: usize) -> usize {
    top - ON_STACK * size_of::<usize>()
}

/// # Safety
/// The function takes these arguments, and the stack below top is free and large enough.
#[cfg(target_arch = "x86_64")]
unsafe fn on_stack(top: usize, function: usize, arguments: Arguments) -> u64 {
    let [a, b, c, d, e, f, g, h, i] = arguments;
    let answer: u64;
    asm!(
        "mov r12, rsp",
        "mov rsp, r13",
        "sub rsp, 8",
        "push r11",
        "push r10",
        "push r14",
        "call r15",
        "mov rsp, r12",
        out("r12") _,
        in("r13") top,
        in("r14") g,
        in("r10") h,
        in("r11") i,
        in("r15") function,
        in("rdi") a,
        in("rsi") b,
        in("rdx") c,
        in("rcx") d,
        in("r8") e,
        in("r9") f,
        lateout("rax") answer,
        clobber_abi("C"),
    );
    answer
}

/// Nobody asks for it elsewhere.
#[cfg(not(target_arch = "x86_64"))]
unsafe fn on_stack(_: usize, _: usize, _: Arguments) -> u64 {
    unreachable!("a painted stack on x86-64 only")
}
