//! The stack that each call needs: the call runs on a region of memory filled with a pattern, and
//! the deepest byte changed tells how far it went.

use crate::calls::*;
use crate::states::{calls_on, more_states, states};
use std::collections::BTreeMap;
use std::ffi::c_void;

pub const LIMIT: usize = 512 * 1024;

const REGION: usize = 32 << 20;
const PATTERN: u64 = 0x9D3B_E6A1_5C72_F84D;

struct Job<'a> {
    manager: &'a Manager,
    area: &'a mut [u8],
    list: &'a mut [u8],
    call: &'a Call,
    outcome: Option<Outcome>,
}

extern "C" fn work(job: *mut c_void) {
    let job = unsafe { &mut *(job as *mut Job) };
    job.outcome = Some(job.manager.call(job.area, job.list, job.call));
}

extern "C" fn nothing(_: *mut c_void) {}

#[cfg(target_arch = "x86_64")]
unsafe fn run_on(top: *mut u8, work: extern "C" fn(*mut c_void), job: *mut c_void) {
    std::arch::asm!(
        "mov r12, rsp",
        "mov rsp, {top}",
        "call {work}",
        "mov rsp, r12",
        top = in(reg) top,
        work = in(reg) work,
        in("rdi") job,
        out("r12") _,
        clobber_abi("C"),
    );
}

#[cfg(target_arch = "aarch64")]
unsafe fn run_on(top: *mut u8, work: extern "C" fn(*mut c_void), job: *mut c_void) {
    std::arch::asm!(
        "mov x20, sp",
        "mov sp, {top}",
        "blr {work}",
        "mov sp, x20",
        top = in(reg) top,
        work = in(reg) work,
        in("x0") job,
        out("x20") _,
        clobber_abi("C"),
    );
}

struct Region {
    words: Vec<u64>,
}

impl Region {
    fn new() -> Region {
        Region { words: vec![PATTERN; REGION / 8] }
    }

    /// Runs the work on this region and gives the bytes of stack it reached.
    #[cfg(any(target_arch = "x86_64", target_arch = "aarch64"))]
    fn measure(&mut self, work: extern "C" fn(*mut c_void), job: *mut c_void) -> usize {
        let base = self.words.as_mut_ptr() as usize;
        let top = (base + REGION) & !15;
        unsafe { run_on(top as *mut u8, work, job) };
        std::hint::black_box(&mut self.words);
        let pattern = PATTERN.to_ne_bytes();
        let deepest = self.words.iter().position(|word| *word != PATTERN);
        let Some(deepest) = deepest else {
            return 0;
        };
        let within = self.words[deepest]
            .to_ne_bytes()
            .iter()
            .zip(pattern)
            .position(|(byte, old)| *byte != old)
            .unwrap();
        self.words[deepest..].fill(PATTERN);
        top - (base + 8 * deepest + within)
    }

    #[cfg(not(any(target_arch = "x86_64", target_arch = "aarch64")))]
    fn measure(&mut self, _: extern "C" fn(*mut c_void), _: *mut c_void) -> usize {
        panic!("the stack cannot be measured on this architecture");
    }
}

pub fn stack(manager: &Manager) -> Result<(), String> {
    println!("stack: bytes that each call needs, {}", manager.name);
    let mut region = Region::new();
    let own = region.measure(nothing, std::ptr::null_mut());
    let mut most: BTreeMap<usize, (usize, String)> = BTreeMap::new();
    let mut all = states();
    all.extend(more_states());
    let areas = all.iter().flat_map(|(name, state)| {
        let old = state.old_bytes().unwrap();
        [(name.to_string(), state, state.bytes()), (format!("{name}, old"), state, old)]
    });
    for (name, state, bytes) in areas {
        for (sort, call) in calls_on(state) {
            let (mut area, mut list) = (bytes.clone(), vec![0; call.list_length()]);
            let mut job =
                Job { manager, area: &mut area, list: &mut list, call: &call, outcome: None };
            let used = region.measure(work, &mut job as *mut Job as *mut c_void) - own;
            let outcome = job.outcome.take().unwrap();
            let expected = state.clone().call(&call, &mut Default::default());
            if outcome != expected {
                return Err(format!("stack: {name}, {call:?}: {outcome:?} instead of {expected:?}"));
            }
            let entry = most.entry(call.kind()).or_insert((0, String::new()));
            if used > entry.0 {
                *entry = (used, format!("{sort}; state: {name}"));
            }
        }
        // An unsound area and a short one.
        for length in [SIZE, 100] {
            let mut area = bytes.clone();
            area[SIZE - 1] = 1;
            for call in [TICK, Call::Count { level: 3 }] {
                let (area, list) = (&mut area[..length], &mut vec![0; call.list_length()]);
                let mut job = Job { manager, area, list, call: &call, outcome: None };
                let used = region.measure(work, &mut job as *mut Job as *mut c_void) - own;
                let entry = most.entry(call.kind()).or_insert((0, String::new()));
                if used > entry.0 {
                    *entry = (used, format!("refused 1; state: {name}"));
                }
            }
        }
    }
    let mut over = Vec::new();
    for (kind, (used, sort)) in &most {
        println!("  {:<8} {used:>9}  ({sort})", KINDS[*kind]);
        if *used >= LIMIT {
            over.push(KINDS[*kind]);
        }
    }
    if over.is_empty() {
        Ok(())
    } else {
        Err(format!("stack: {LIMIT} bytes or more: {}", over.join(", ")))
    }
}
