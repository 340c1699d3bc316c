//! A lock script that both understand: the proved desk beside Berkeley DB's lock manager.

use bench::cases::{self, RECORDS};
use bench::measure::{row, time, Unit};
use bench::state::State;
use saltlicker::raw;
use std::ffi::{c_char, c_int, c_long, c_uint, c_void, CString};
use std::path::Path;
use std::time::Duration;

extern "C" {
    fn berkeley_open(folder: *const c_char, threaded: c_int) -> *mut c_void;
    fn berkeley_hold_all(env: *mut c_void) -> c_int;
    fn berkeley_changes(env: *mut c_void, changes: c_uint, k: c_uint) -> c_long;
}

/// Rows for few and many locks a change, granted and not, one request a call and as a batch.
pub fn rows() {
    let folder = std::env::temp_dir().join(format!("bench-{}", std::process::id()));
    std::fs::create_dir(&folder).expect("a folder can be made");
    for threaded in [false, true] {
        let free = Manager::open(&folder, threaded);
        let taken = Manager::open(&folder, threaded);
        taken.hold_all();
        for k in [1, 16, 256] {
            rows_of(&free, "granted", k, &State::cleared(RECORDS as usize));
            rows_of(&taken, "not granted", k, &cases::named("wait1").start);
        }
    }
    std::fs::remove_dir_all(&folder).expect("the folder can be removed");
}

fn rows_of(manager: &Manager, answered: &str, k: u32, start: &State) {
    let changes = 4_096 / k;
    let requests = script(changes, k);
    let count = requests.len() / 3;
    check(manager, changes, k, start, &requests);
    for (a_call, how) in [(1, "one a call"), (count, "a batch")] {
        let what = format!("k = {k}, {answered}, {how}");
        let theirs = || time(|| manager.changes(changes, k));
        row(&what, manager.name, (Unit::NsRequest, count), ours(start, &requests, a_call), theirs);
    }
}

/// BEGIN, k LOCKs and FINISH by seat 2, again and again, over the records in turn.
fn script(changes: u32, k: u32) -> Vec<u32> {
    let change = |change: u32| {
        let locks = (0..k).flat_map(move |i| [2, 2, (change * k + i) % RECORDS]);
        [1, 2, 0].into_iter().chain(locks).chain([5, 2, 0])
    };
    (0..changes).flat_map(change).collect()
}

fn ours<'a>(start: &'a State, requests: &'a [u32], a_call: usize) -> impl FnMut() -> Duration + 'a {
    let (mut state, mut answers) = (start.clone(), vec![0; requests.len() / 3]);
    move || {
        state.copy_from(start);
        time(|| {
            for (words, said) in requests.chunks(3 * a_call).zip(answers.chunks_mut(a_call)) {
                state.judge(raw::judge, words, said);
            }
        })
    }
}

/// Both grant the same number of locks: all, or none.
fn check(manager: &Manager, changes: u32, k: u32, start: &State, requests: &[u32]) {
    let (mut state, mut answers) = (start.clone(), vec![0; requests.len() / 3]);
    state.judge(raw::judge, requests, &mut answers);
    let granted = answers.iter().filter(|&&answer| answer >> 32 == 102).count();
    let theirs = manager.changes(changes, k);
    assert!(theirs == granted as c_long, "Berkeley DB granted {theirs}, the desk {granted}");
    assert!(granted == 0 || granted as u32 == changes * k, "only some locks were granted");
}

/// An open lock manager; it lasts as long as the process.
struct Manager {
    env: *mut c_void,
    name: &'static str,
}

impl Manager {
    fn open(folder: &Path, threaded: bool) -> Manager {
        let folder = folder.as_os_str().as_encoded_bytes();
        let folder = CString::new(folder).expect("a path has no zero byte");
        // SAFETY: the string lives through the call.
        let env = unsafe { berkeley_open(folder.as_ptr(), c_int::from(threaded)) };
        assert!(!env.is_null(), "Berkeley DB does not open");
        Manager { env, name: if threaded { "Berkeley DB, latched" } else { "Berkeley DB" } }
    }

    fn hold_all(&self) {
        // SAFETY: the environment is open.
        assert!(unsafe { berkeley_hold_all(self.env) } == 0, "Berkeley DB lacks room");
    }

    fn changes(&self, changes: u32, k: u32) -> c_long {
        // SAFETY: the environment is open.
        unsafe { berkeley_changes(self.env, changes, k) }
    }
}
