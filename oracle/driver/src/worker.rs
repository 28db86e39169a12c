//! Runs sheets in a child process with limits. A child that dies is replaced,
//! and the sheet it died on gets a verdict in place of its answer.

use std::alloc::{GlobalAlloc, Layout, System};
use std::fs::File;
use std::io::{BufReader, Read, Write};
use std::os::fd::FromRawFd;
use std::sync::atomic::{AtomicUsize, Ordering::Relaxed};

const OVERFLOW: i32 = 77;
const MEMORY: i32 = 78;
const TIMEOUT: i32 = 79;
const PANIC: i32 = 101;

static LIVE: AtomicUsize = AtomicUsize::new(0);
static LIMIT: AtomicUsize = AtomicUsize::new(usize::MAX);

/// The system's allocator with a count of live bytes.
pub struct Counted;

fn grown(size: usize) {
    if LIVE.fetch_add(size, Relaxed) + size > LIMIT.load(Relaxed) {
        unsafe { libc::_exit(MEMORY) }
    }
}

unsafe impl GlobalAlloc for Counted {
    unsafe fn alloc(&self, layout: Layout) -> *mut u8 {
        grown(layout.size());
        System.alloc(layout)
    }

    unsafe fn dealloc(&self, place: *mut u8, layout: Layout) {
        LIVE.fetch_sub(layout.size(), Relaxed);
        System.dealloc(place, layout)
    }

    unsafe fn realloc(&self, place: *mut u8, layout: Layout, size: usize) -> *mut u8 {
        grown(size);
        LIVE.fetch_sub(layout.size(), Relaxed);
        System.realloc(place, layout, size)
    }
}

extern "C" fn overflowed(_: libc::c_int) {
    unsafe { libc::_exit(OVERFLOW) }
}

extern "C" fn timed_out(_: libc::c_int) {
    unsafe { libc::_exit(TIMEOUT) }
}

unsafe fn on_signal(signal: libc::c_int, handler: extern "C" fn(libc::c_int)) {
    let mut action: libc::sigaction = std::mem::zeroed();
    action.sa_sigaction = handler as *const () as usize;
    action.sa_flags = libc::SA_ONSTACK;
    libc::sigaction(signal, &action, std::ptr::null_mut());
}

/// Limits of stack and memory for this process.
unsafe fn limit(memory: usize, stack: u64) {
    let stack = libc::rlimit {
        rlim_cur: stack,
        rlim_max: stack,
    };
    libc::setrlimit(libc::RLIMIT_STACK, &stack);
    let size = 64 << 10;
    let other = libc::stack_t {
        ss_sp: Box::leak(vec![0u8; size].into_boxed_slice()).as_mut_ptr().cast(),
        ss_flags: 0,
        ss_size: size,
    };
    libc::sigaltstack(&other, std::ptr::null_mut());
    on_signal(libc::SIGSEGV, overflowed);
    on_signal(libc::SIGBUS, overflowed);
    on_signal(libc::SIGPROF, timed_out);
    LIMIT.store(LIVE.load(Relaxed) + memory, Relaxed);
}

extern "C" {
    // Debian's libc crate lacks it.
    fn setitimer(
        which: libc::c_int,
        new: *const libc::itimerval,
        old: *mut libc::itimerval,
    ) -> libc::c_int;
}

/// Gives the next sheet its processor time.
unsafe fn wind(milliseconds: u64) {
    let timer = libc::itimerval {
        it_interval: std::mem::zeroed(),
        it_value: libc::timeval {
            tv_sec: (milliseconds / 1000) as i64,
            tv_usec: (milliseconds % 1000 * 1000) as i64,
        },
    };
    setitimer(libc::ITIMER_PROF, &timer, std::ptr::null_mut());
}

/// The child: answers the sheets in turn, each handed over before the next.
fn work(sheets: &[Vec<u8>], mut to: File, limits: &Limits, one: &dyn Fn(&[u8]) -> String) -> ! {
    unsafe { limit(limits.memory, limits.stack) };
    for sheet in sheets {
        unsafe { wind(limits.milliseconds) };
        let answer = one(sheet);
        let mut block = (answer.len() as u32).to_be_bytes().to_vec();
        block.extend_from_slice(answer.as_bytes());
        if to.write_all(&block).is_err() {
            break;
        }
    }
    unsafe { libc::_exit(0) }
}

pub struct Limits {
    pub milliseconds: u64,
    pub memory: usize,
    pub stack: u64,
}

fn block(from: &mut impl Read) -> Option<String> {
    let mut length = [0; 4];
    from.read_exact(&mut length).ok()?;
    let mut text = vec![0; u32::from_be_bytes(length) as usize];
    from.read_exact(&mut text).ok()?;
    String::from_utf8(text).ok()
}

fn verdict(status: i32) -> String {
    if libc::WIFEXITED(status) {
        match libc::WEXITSTATUS(status) {
            OVERFLOW => "overflow\n".to_string(),
            MEMORY => "memory\n".to_string(),
            TIMEOUT => "timeout\n".to_string(),
            PANIC => "panic\n".to_string(),
            code => format!("crash {code}\n"),
        }
    } else {
        format!("crash signal {}\n", libc::WTERMSIG(status))
    }
}

/// Answers every sheet in its order; `warm` is called before the second child.
pub fn answer_all(
    sheets: &[Vec<u8>],
    limits: &Limits,
    one: &dyn Fn(&[u8]) -> String,
    warm: impl Fn(),
    mut give: impl FnMut(&str),
) {
    let (mut done, mut children) = (0, 0);
    while done < sheets.len() {
        children += 1;
        if children == 2 {
            warm();
        }
        let mut ends = [0; 2];
        let child = unsafe {
            assert!(libc::pipe(ends.as_mut_ptr()) == 0, "no pipe");
            libc::fork()
        };
        assert!(child >= 0, "no child");
        let (from, to) = unsafe { (File::from_raw_fd(ends[0]), File::from_raw_fd(ends[1])) };
        if child == 0 {
            drop(from);
            work(&sheets[done..], to, limits, one);
        }
        drop(to);
        let mut from = BufReader::new(from);
        while done < sheets.len() {
            let Some(text) = block(&mut from) else { break };
            give(&text);
            done += 1;
        }
        let mut status = 0;
        unsafe { libc::waitpid(child, &mut status, 0) };
        if done < sheets.len() {
            give(&verdict(status));
            done += 1;
        }
    }
}
