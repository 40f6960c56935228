//! The calls of rust_dlx.h over the unchanged crate.
//!
//! Rounds are counted from outside: `Watched` is a problem of ours that hands every walk on to the crate's own and counts how often the item count is
//! asked for, which `reduce` does once a round. Timed calls use the crate's problem itself.

use std::cell::Cell;
use std::panic::{AssertUnwindSafe, catch_unwind};
use std::slice;
use std::sync::Once;

use dlx::p::{Preproc, Reduce};
use dlx::{Dance, Int, Items, OptOrder, Opts, Uint, c, x};

const OK: i32 = 0;
const INFEASIBLE: i32 = 1;
const PANIC: i32 = 2;
const NONE: u32 = u32::MAX;

#[repr(C)]
pub struct Outcome {
    code: i32,
    item: u32,
    rounds: u32,
    settled: u32,
    emptied: u32,
    primaries: u32,
    secondaries: u32,
    options: u32,
    entries: u32,
}

const STOPPED: Outcome = Outcome {
    code: PANIC,
    item: NONE,
    rounds: 0,
    settled: 0,
    emptied: NONE,
    primaries: 0,
    secondaries: 0,
    options: 0,
    entries: 0,
};

// The lists as C hands them in.

struct Given<'a> {
    np: u32,
    ns: u32,
    items: &'a [u32],
    colours: &'a [u32],
    ends: &'a [u32],
}

/// A part of memory that C names by its start and length; a null start is taken with length 0.
unsafe fn part<'a>(start: *const u32, len: usize) -> &'a [u32] {
    if len == 0 { &[] } else { unsafe { slice::from_raw_parts(start, len) } }
}

unsafe fn part_mut<'a>(start: *mut u32, len: usize) -> &'a mut [u32] {
    if len == 0 { &mut [] } else { unsafe { slice::from_raw_parts_mut(start, len) } }
}

/// The two kinds of problem that `Preproc` can reduce.
trait Kind: Reduce + Sized {
    fn entry(item: u32, colour: u32) -> <Self::O as Opts>::Data;
    fn read(entry: <Self::O as Opts>::Data) -> (u32, u32);
    fn make(np: Uint, ns: Uint, os: &[Vec<<Self::O as Opts>::Data>]) -> Self;
}

impl Kind for c::Problem {
    fn entry(item: u32, colour: u32) -> (Uint, Int) {
        (item as Uint, colour as Int)
    }
    fn read(entry: (Uint, Int)) -> (u32, u32) {
        (entry.0 as u32, entry.1 as u32)
    }
    fn make(np: Uint, ns: Uint, os: &[Vec<(Uint, Int)>]) -> Self {
        c::make_problem(np, ns, os, OptOrder::Seq)
    }
}

impl Kind for x::Problem {
    fn entry(item: u32, _: u32) -> Uint {
        item as Uint
    }
    fn read(entry: Uint) -> (u32, u32) {
        (entry as u32, 0)
    }
    fn make(np: Uint, ns: Uint, os: &[Vec<Uint>]) -> Self {
        x::make_problem(np, ns, os, OptOrder::Seq)
    }
}

type Options<P> = Vec<Vec<<<P as Dance>::O as Opts>::Data>>;

fn options_of<P: Kind>(given: &Given) -> Options<P> {
    let mut begin = 0;
    let mut os = Vec::with_capacity(given.ends.len());
    for &end in given.ends {
        let end = end as usize;
        os.push((begin..end).map(|e| P::entry(given.items[e], given.colours[e])).collect());
        begin = end;
    }
    os
}

// A problem that counts rounds.

/// `reduce` reads the items only through these two counts.
struct Counts {
    primary: Uint,
    count: Uint,
    asked: Cell<u32>,
}

impl Items for Counts {
    fn llink(&mut self, _: Uint) -> &mut Uint {
        unreachable!("Preproc uses no item links")
    }
    fn rlink(&mut self, _: Uint) -> &mut Uint {
        unreachable!("Preproc uses no item links")
    }
    fn primary(&self) -> Uint {
        self.primary
    }
    fn count(&self) -> Uint {
        self.asked.set(self.asked.get() + 1);
        self.count
    }
}

struct Watched<P> {
    inner: P,
    items: Counts,
}

impl<P: Kind> Watched<P> {
    fn new(np: u32, ns: u32, os: &Options<P>) -> Watched<P> {
        let (np, ns) = (np as Uint, ns as Uint);
        let items = Counts { primary: np, count: np + ns, asked: Cell::new(0) };
        Watched { inner: P::make(np, ns, os), items }
    }
}

impl<P: Reduce> Dance for Watched<P> {
    type I = Counts;
    type O = P::O;

    fn items(&mut self) -> &mut Counts {
        &mut self.items
    }
    fn opts(&mut self) -> &mut P::O {
        self.inner.opts()
    }
    fn updates(&mut self) -> &mut isize {
        self.inner.updates()
    }
    fn cover(&mut self, i: Uint) {
        self.inner.cover(i)
    }
    fn commit(&mut self, p: Uint, j: Uint) {
        self.inner.commit(p, j)
    }
    fn uncover(&mut self, i: Uint) {
        self.inner.uncover(i)
    }
    fn uncommit(&mut self, p: Uint, j: Uint) {
        self.inner.uncommit(p, j)
    }
    fn hide(&mut self, p: Uint) {
        self.inner.hide(p)
    }
    fn unhide(&mut self, p: Uint) {
        self.inner.unhide(p)
    }
    fn branch_degree(&mut self, i: Uint) -> Int {
        self.inner.branch_degree(i)
    }
}

impl<P: Reduce> Reduce for Watched<P> {
    fn get_color(&mut self, n: Uint) -> Int {
        self.inner.get_color(n)
    }
    fn get_opt_data(&self, i: Uint, c: Int) -> <P::O as Opts>::Data {
        self.inner.get_opt_data(i, c)
    }
}

// One watched run.

enum Said<P: Kind> {
    Reduced(Options<P>, Vec<Uint>),
    Infeasible(u32),
    Stopped,
}

struct Run<P: Kind> {
    said: Said<P>,
    rounds: u32,
    kept: Vec<u32>,
    emptied: u32,
}

/// The item of "Primary item 2 is not in any option", counted from 0.
fn item_of(text: &str) -> u32 {
    text.split_whitespace().find_map(|word| word.parse::<u32>().ok()).map_or(NONE, |i| i - 1)
}

fn run<P: Kind>(np: u32, ns: u32, os: &Options<P>, cap: usize) -> Run<P> {
    let mut watched = Watched::<P>::new(np, ns, os);
    let tops = tops_of(&mut watched, np + ns, os);
    let said = match quietly(|| Preproc::new(&mut watched).reduce(cap)) {
        Some(Ok((_, _, options, numbers))) => Said::Reduced(options, numbers),
        Some(Err(error)) => Said::Infeasible(item_of(&error.to_string())),
        None => Said::Stopped,
    };
    // Beside the rounds the count is asked for by `new`, and at the end by `get_items` twice and by `get_options`.
    let besides = if let Said::Reduced(..) = said { 4 } else { 1 };
    let rounds = watched.items.asked.get() - besides;
    let kept = (0..np + ns).filter(|&i| *watched.len((i + 1) as Uint) != 0).collect();
    let emptied = if rounds == 0 { NONE } else { emptied_by_blocked(&mut watched, np, &tops) };
    Run { said, rounds, kept, emptied }
}

/// Runs it with panics caught and kept off the standard error.
fn quietly<T>(call: impl FnOnce() -> T) -> Option<T> {
    static SILENT: Once = Once::new();
    SILENT.call_once(|| std::panic::set_hook(Box::new(|_| {})));
    catch_unwind(AssertUnwindSafe(call)).ok()
}

/// The head of each entry's node as built. Nodes stand behind n + 2 others, an option and its boundary after another; skipped options have none.
fn tops_of<P: Kind>(watched: &mut Watched<P>, n: u32, os: &Options<P>) -> Vec<(Uint, Int)> {
    let np = watched.items.primary;
    let mut node = (n + 2) as Uint;
    let mut tops = Vec::new();
    for option in os {
        if option.iter().any(|&entry| (P::read(entry).0 as Uint) < np) {
            for _ in option {
                tops.push((node, *watched.top(node)));
                node += 1;
            }
            node += 1;
        }
    }
    tops
}

/// A primary item in no option, of which no entry was shortened. One removed as redundant leaves a shortened entry in every option that holds p, and
/// there is one; an error of `remove_item` leaves the length at 1. So only a blocked deletion leaves an item this way.
fn emptied_by_blocked<P: Kind>(watched: &mut Watched<P>, np: u32, tops: &[(Uint, Int)]) -> u32 {
    for i in 1..=np {
        let gone = *watched.len(i as Uint) == 0;
        if gone && !tops.iter().any(|&(node, top)| top == i as Int && *watched.top(node) == 0) {
            return i - 1;
        }
    }
    NONE
}

// The result under original numbers.

struct Lists<'a> {
    kept: &'a mut [u32],
    ends: &'a mut [u32],
    numbers: &'a mut [u32],
    items: &'a mut [u32],
    colours: &'a mut [u32],
    crate_items: &'a mut [u32],
}

/// What `get_options` takes off each secondary item, and the last number of a primary.
fn lowering(kept: &[u32], primaries: usize) -> (u32, u32) {
    match (primaries.checked_sub(1), kept.get(primaries)) {
        (Some(last), Some(first)) => (kept[last], first - kept[last] - 1),
        (Some(last), None) => (kept[last], 0),
        (None, _) => (0, 0),
    }
}

fn write<P: Kind>(given: &Given, run: &Run<P>, lists: &mut Lists, out: &mut Outcome) {
    let Said::Reduced(options, numbers) = &run.said else { return };
    let primaries = run.kept.iter().filter(|&&i| i < given.np).count();
    let (last, sd) = lowering(&run.kept, primaries);
    let mut e = 0;
    lists.kept[..run.kept.len()].copy_from_slice(&run.kept);
    for (k, option) in options.iter().enumerate() {
        for &entry in option {
            let (item, colour) = P::read(entry);
            lists.crate_items[e] = item;
            lists.items[e] = if item > last { item + sd } else { item };
            lists.colours[e] = colour;
            e += 1;
        }
        lists.ends[k] = e as u32;
        lists.numbers[k] = numbers[k] as u32;
    }
    out.primaries = primaries as u32;
    out.secondaries = (run.kept.len() - primaries) as u32;
    (out.options, out.entries) = (options.len() as u32, e as u32);
}

fn reduce<P: Kind>(given: &Given, cap: u32, lists: &mut Lists) -> Outcome {
    let os = options_of::<P>(given);
    let first = run::<P>(given.np, given.ns, &os, cap as usize);
    let mut out = Outcome { rounds: first.rounds, emptied: first.emptied, ..STOPPED };
    match first.said {
        Said::Stopped => (),
        Said::Infeasible(item) => (out.code, out.item) = (INFEASIBLE, item),
        Said::Reduced(..) => {
            out.code = OK;
            write(given, &first, lists, &mut out);
            // With one round more the work ends at the same round exactly if that round changed nothing.
            let second = run::<P>(given.np, given.ns, &os, cap as usize + 1);
            out.settled = (second.rounds == first.rounds) as u32;
        }
    }
    out
}

/// # Safety
/// As rust_dlx.h says: `items` and `colours` have `e` numbers, `ends` has `m`, the lists written have the room named there.
#[unsafe(no_mangle)]
pub unsafe extern "C" fn rust_dlx_reduce(
    kind: i32, np: u32, ns: u32, cap: u32, items: *const u32, colours: *const u32, e: usize, ends: *const u32, m: usize,
    kept: *mut u32, out_ends: *mut u32, numbers: *mut u32, out_items: *mut u32, out_colours: *mut u32, crate_items: *mut u32,
) -> Outcome {
    let given = unsafe { Given { np, ns, items: part(items, e), colours: part(colours, e), ends: part(ends, m) } };
    let n = (np + ns) as usize;
    let mut lists = unsafe {
        Lists {
            kept: part_mut(kept, n),
            ends: part_mut(out_ends, m),
            numbers: part_mut(numbers, m),
            items: part_mut(out_items, e),
            colours: part_mut(out_colours, e),
            crate_items: part_mut(crate_items, e),
        }
    };
    let call = || if kind == 0 { reduce::<c::Problem>(&given, cap, &mut lists) } else { reduce::<x::Problem>(&given, cap, &mut lists) };
    quietly(call).unwrap_or(STOPPED)
}

// The same in parts, for timing: the crate's own problem, nothing watched.

pub enum Prepared {
    Coloured(Uint, Uint, Options<c::Problem>),
    Plain(Uint, Uint, Options<x::Problem>),
}

pub enum Kept {
    Coloured(#[allow(dead_code)] c::Problem, Option<Options<c::Problem>>, #[allow(dead_code)] Vec<Uint>),
    Plain(#[allow(dead_code)] x::Problem, Option<Options<x::Problem>>, #[allow(dead_code)] Vec<Uint>),
    Stopped,
}

/// # Safety
/// As rust_dlx.h says: `items` and `colours` have `e` numbers, `ends` has `m`.
#[unsafe(no_mangle)]
pub unsafe extern "C" fn rust_dlx_prepare(
    kind: i32, np: u32, ns: u32, items: *const u32, colours: *const u32, e: usize, ends: *const u32, m: usize,
) -> *mut Prepared {
    let given = unsafe { Given { np, ns, items: part(items, e), colours: part(colours, e), ends: part(ends, m) } };
    let (np, ns) = (np as Uint, ns as Uint);
    Box::into_raw(Box::new(if kind == 0 {
        Prepared::Coloured(np, ns, options_of::<c::Problem>(&given))
    } else {
        Prepared::Plain(np, ns, options_of::<x::Problem>(&given))
    }))
}

/// # Safety
/// `problem` came from `rust_dlx_prepare` and was not released before.
#[unsafe(no_mangle)]
pub unsafe extern "C" fn rust_dlx_release(problem: *mut Prepared) {
    drop(unsafe { Box::from_raw(problem) })
}

/// The whole call of the crate's user.
#[inline(always)]
fn whole<P: Kind>(np: Uint, ns: Uint, os: &Options<P>, cap: u32) -> (P, Option<Options<P>>, Vec<Uint>) {
    let mut problem = P::make(np, ns, os);
    match Preproc::new(&mut problem).reduce(cap as usize) {
        Ok((_, _, options, numbers)) => (problem, Some(options), numbers),
        Err(_) => (problem, None, Vec::new()),
    }
}

fn call(problem: &Prepared, cap: u32) -> Kept {
    match problem {
        Prepared::Coloured(np, ns, os) => {
            let (problem, options, numbers) = whole::<c::Problem>(*np, *ns, os, cap);
            Kept::Coloured(problem, options, numbers)
        }
        Prepared::Plain(np, ns, os) => {
            let (problem, options, numbers) = whole::<x::Problem>(*np, *ns, os, cap);
            Kept::Plain(problem, options, numbers)
        }
    }
}

fn options_in(kept: &Kept) -> u64 {
    let count = match kept {
        Kept::Coloured(_, options, _) => options.as_ref().map(Vec::len),
        Kept::Plain(_, options, _) => options.as_ref().map(Vec::len),
        Kept::Stopped => return u64::MAX,
    };
    count.map_or(0, |m| m as u64 + 1)
}

/// # Safety
/// `problem` came from `rust_dlx_prepare`.
#[unsafe(no_mangle)]
pub unsafe extern "C" fn rust_dlx_call(problem: *const Prepared, cap: u32) -> u64 {
    let problem = unsafe { &*problem };
    catch_unwind(AssertUnwindSafe(|| options_in(&call(problem, cap)))).unwrap_or(u64::MAX)
}

/// # Safety
/// `problem` came from `rust_dlx_prepare`.
#[unsafe(no_mangle)]
pub unsafe extern "C" fn rust_dlx_call_keeping(problem: *const Prepared, cap: u32) -> *mut Kept {
    let problem = unsafe { &*problem };
    Box::into_raw(Box::new(catch_unwind(AssertUnwindSafe(|| call(problem, cap))).unwrap_or(Kept::Stopped)))
}

/// # Safety
/// `answer` came from `rust_dlx_call_keeping`.
#[unsafe(no_mangle)]
pub unsafe extern "C" fn rust_dlx_answer_options(answer: *const Kept) -> u64 {
    options_in(unsafe { &*answer })
}

/// # Safety
/// `answer` came from `rust_dlx_call_keeping` and was not dropped before.
#[unsafe(no_mangle)]
pub unsafe extern "C" fn rust_dlx_drop(answer: *mut Kept) {
    drop(unsafe { Box::from_raw(answer) })
}
