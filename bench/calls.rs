//! The library's calls over slices: the functions of include/guide_rules.h, each with an answer block of its own. A call gives the refusal's number, 0
//! for none; `read`, `value`, `evaluate_stars`, `raw_cost` and those on packages give the result. It rests on the static library `guide_rules`.

#[link(name = "guide_rules", kind = "static")]
extern "C" {
    fn rule_transform(flags: u64, table: *const u64, entries: u64, out: *mut u64, room: u64, answer: *mut u64, answers: u64) -> u64;
    fn rule_way_back(flags: u64, words: *const u64, count: u64, out: *mut u64, room: u64, answer: *mut u64, answers: u64) -> u64;
    fn rule_listing(flags: u64, words: *const u64, count: u64, out: *mut u32, room: u64, answer: *mut u64, answers: u64) -> u64;
    fn rule_raw_cost(flags: u64, words: *const u64, count: u64, answer: *mut u64, answers: u64) -> u64;
    fn rule_compile(flags: u64, table: *const u64, entries: u64, out: *mut u8, room: u64, answer: *mut u64, answers: u64) -> u64;
    fn rule_read(flags: u64, bytes: *const u8, length: u64, place: u64, answer: *mut u64, answers: u64) -> u64;
    fn rule_evaluate(flags: u64, bytes: *const u8, length: u64, setting: u64, answer: *mut u64, answers: u64) -> u64;
    fn rule_evaluate_stars(flags: u64, words: *const u64, count: u64, bytes: *const u8, length: u64, answer: *mut u64, answers: u64) -> u64;
    fn rule_cost(flags: u64, bytes: *const u8, length: u64, answer: *mut u64, answers: u64) -> u64;
    fn rule_examine(flags: u64, table: *const u64, entries: u64, bytes: *const u8, length: u64, answer: *mut u64, answers: u64) -> u64;
    #[link_name = "package_write"]
    fn package_write_(flags: u64, table: u64, bytes: *const u8, length: u64, out: *mut u8, room: u64, answer: *mut u64, answers: u64) -> u64;
    #[link_name = "package_read"]
    fn package_read_(package: *const u8, length: u64, place: u64, answer: *mut u64, answers: u64) -> u64;
}

/// The most results of a call.
const ANSWERS: usize = 6;

/// Calls with an answer block that has room for every answer.
fn answered(call: impl FnOnce(*mut u64, u64) -> u64) -> u64 {
    let mut answer = [0u64; ANSWERS];
    call(answer.as_mut_ptr(), ANSWERS as u64)
}

/// The first result; a refusal, which no input of the benchmark has, stops the run.
fn given(call: impl FnOnce(*mut u64, u64) -> u64) -> u64 {
    let mut answer = [0u64; ANSWERS];
    assert_eq!(call(answer.as_mut_ptr(), ANSWERS as u64), 0);
    answer[0]
}

pub fn transform(flags: usize, table: &[u64], out: &mut [u64]) -> u64 {
    answered(|a, k| unsafe { rule_transform(flags as u64, table.as_ptr(), table.len() as u64, out.as_mut_ptr(), out.len() as u64, a, k) })
}

pub fn way_back(flags: usize, words: &[u64], out: &mut [u64]) -> u64 {
    answered(|a, k| unsafe { rule_way_back(flags as u64, words.as_ptr(), words.len() as u64, out.as_mut_ptr(), out.len() as u64, a, k) })
}

pub fn listing(flags: usize, words: &[u64], out: &mut [u32]) -> u64 {
    answered(|a, k| unsafe { rule_listing(flags as u64, words.as_ptr(), words.len() as u64, out.as_mut_ptr(), out.len() as u64, a, k) })
}

/// The cost.
pub fn raw_cost(flags: usize, words: &[u64]) -> u64 {
    given(|a, k| unsafe { rule_raw_cost(flags as u64, words.as_ptr(), words.len() as u64, a, k) })
}

pub fn compile(flags: usize, table: &[u64], out: &mut [u8]) -> u64 {
    answered(|a, k| unsafe { rule_compile(flags as u64, table.as_ptr(), table.len() as u64, out.as_mut_ptr(), out.len() as u64, a, k) })
}

/// The kind of the record at a place.
pub fn read(flags: usize, bytes: &[u8], place: usize) -> u64 {
    given(|a, k| unsafe { rule_read(flags as u64, bytes.as_ptr(), bytes.len() as u64, place as u64, a, k) })
}

pub fn evaluate(flags: usize, bytes: &[u8], setting: usize) -> u64 {
    answered(|a, k| unsafe { rule_evaluate(flags as u64, bytes.as_ptr(), bytes.len() as u64, setting as u64, a, k) })
}

/// The value at a setting.
pub fn value(flags: usize, bytes: &[u8], setting: u64) -> u64 {
    given(|a, k| unsafe { rule_evaluate(flags as u64, bytes.as_ptr(), bytes.len() as u64, setting, a, k) })
}

/// The word of values.
pub fn evaluate_stars(flags: usize, words: &[u64], bytes: &[u8]) -> u64 {
    given(|a, k| unsafe { rule_evaluate_stars(flags as u64, words.as_ptr(), words.len() as u64, bytes.as_ptr(), bytes.len() as u64, a, k) })
}

pub fn cost(flags: usize, bytes: &[u8]) -> u64 {
    answered(|a, k| unsafe { rule_cost(flags as u64, bytes.as_ptr(), bytes.len() as u64, a, k) })
}

pub fn examine(flags: usize, table: &[u64], bytes: &[u8]) -> u64 {
    answered(|a, k| unsafe { rule_examine(flags as u64, table.as_ptr(), table.len() as u64, bytes.as_ptr(), bytes.len() as u64, a, k) })
}

/// The length of the rule written.
pub fn package_write(flags: usize, table: u64, bytes: &[u8], out: &mut [u8]) -> u64 {
    given(|a, k| unsafe { package_write_(flags as u64, table, bytes.as_ptr(), bytes.len() as u64, out.as_mut_ptr(), out.len() as u64, a, k) })
}

/// The table word of the rule there and the next place, or none at the end.
pub fn package_read(package: &[u8], place: usize) -> Option<(u64, usize)> {
    let mut answer = [0u64; ANSWERS];
    let number = unsafe { package_read_(package.as_ptr(), package.len() as u64, place as u64, answer.as_mut_ptr(), ANSWERS as u64) };
    assert_eq!(number, 0);
    (answer[0] == 1).then_some((answer[2], answer[5] as usize))
}
