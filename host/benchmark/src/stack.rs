//! How much stack a call uses: it is made on a stack of its own, filled with a pattern, and what it
//! has overwritten is looked for afterwards.

use crate::calls::Calls;
use crate::inputs::{Input, QUEUE_BYTES};
use crate::measure::Call;
use std::arch::asm;

const STACK_BYTES: usize = 65_536;

/// Two, so that a byte overwritten by what stood there already is seen under the other.
const PATTERNS: [u8; 2] = [0xa5, 0x5a];

#[repr(align(16))]
struct Stack([u8; STACK_BYTES]);

/// The most bytes that a call on any of the inputs uses, the return address included, and the numbers
/// that it is given on the stack.
pub fn most_used(call: Call, calls: &Calls, inputs: &[Input]) -> usize {
    let used = inputs.iter().map(|input| used_by(call, calls, input));
    used.max().unwrap_or(0)
}

fn used_by(call: Call, calls: &Calls, input: &Input) -> usize {
    let mut state = input.state;
    let mut queue = [0; QUEUE_BYTES];
    let mut most = 0;
    for pattern in PATTERNS {
        state.copy_from_slice(&input.state);
        let lent = [state.as_mut_ptr() as u64, state.len() as u64];
        let (function, given) = match call {
            Call::Start => (calls.start as usize, for_starting(input, &[], lent)),
            Call::StartPairs => (
                calls.start as usize,
                for_starting(input, &input.pairs, lent),
            ),
            Call::Pass => {
                let told = [u64::from(input.d), u64::from(input.finished)];
                (calls.pass as usize, vec![lent, told])
            }
            Call::Show => {
                let room = [queue.as_mut_ptr() as u64, queue.len() as u64];
                (calls.show as usize, vec![lent, room])
            }
            Call::Queued => (calls.queued as usize, vec![lent]),
            Call::Damping => {
                let angle = u64::from(input.angle as u32);
                (calls.damping as usize, vec![[angle, 0]])
            }
        };
        let mut stack = Box::new(Stack([pattern; STACK_BYTES]));
        // SAFETY: the function takes these numbers, and the stack is large and aligned.
        unsafe { call_on(&mut stack, function, &given) };
        let untouched = stack.0.iter().take_while(|byte| **byte == pattern).count();
        most = most.max(STACK_BYTES - untouched);
    }
    most
}

/// Two numbers that a C function is given: most often a pointer and a length.
type Two = [u64; 2];

fn for_starting(input: &Input, pairs: &[u8], state: Two) -> Vec<Two> {
    let (levels, block) = (lent_to_read(&input.levels), lent_to_read(&input.block));
    vec![levels, block, lent_to_read(pairs), state]
}

fn lent_to_read(bytes: &[u8]) -> Two {
    [bytes.as_ptr() as u64, bytes.len() as u64]
}

/// As many twos go into registers. A function that takes fewer does not look at the others.
const IN_REGISTERS: usize = 3;

/// Puts the twos that no register takes at the stack's upper end, the first of them lowest, as C does.
/// Says how many bytes they are; sixteen for each leave the stack aligned.
fn put_the_rest(stack: &mut Stack, given: &[Two]) -> usize {
    let rest = given.iter().skip(IN_REGISTERS).flatten();
    let rest: Vec<u8> = rest.flat_map(|number| number.to_ne_bytes()).collect();
    stack.0[STACK_BYTES - rest.len()..].copy_from_slice(&rest);
    rest.len()
}

/// Calls a C function on another stack. Of that the call uses what it is given there, too.
unsafe fn call_on(stack: &mut Stack, function: usize, given: &[Two]) -> u64 {
    let in_registers = |place: usize| given.get(place).copied().unwrap_or([0, 0]);
    let [first, second, third]: [Two; IN_REGISTERS] = [0, 1, 2].map(in_registers);
    let rest = put_the_rest(stack, given);
    let top = stack.0.as_mut_ptr_range().end.wrapping_sub(rest);
    let reply;
    // SAFETY: r12 is kept by what is called, so the old stack is found again.
    unsafe {
        asm!(
            "mov r12, rsp",
            "mov rsp, {top}",
            "call {function}",
            "mov rsp, r12",
            top = in(reg) top,
            function = in(reg) function,
            in("rdi") first[0],
            in("rsi") first[1],
            in("rdx") second[0],
            in("rcx") second[1],
            in("r8") third[0],
            in("r9") third[1],
            out("r12") _,
            lateout("rax") reply,
            clobber_abi("C"),
        );
    }
    reply
}
