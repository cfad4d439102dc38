//! Tests of processes that many threads read at once, that move from thread to thread, and that share
//! their tables.

use crate::common::*;
use dwcheck::{
    check, Abi, Block, DebugFrame, DebugLoclists, Process, Registers, Row, State, Stop, Target,
};
use std::sync::{mpsc, Barrier, Mutex, RwLock};
use std::thread;

fn is_send<T: Send>() {}
fn is_sync<T: Sync>() {}

#[test]
fn what_is_send_and_sync() {
    is_send::<Process>();
    is_sync::<Process>();
    is_sync::<dwcheck::Steps<'_>>();
    is_send::<State<'_>>();
    is_sync::<State<'_>>();
    is_send::<Block<'_>>();
    is_sync::<Block<'_>>();
    is_sync::<Registers>();
    is_send::<dwcheck::Backtrace>();
    is_sync::<dwcheck::Row>();
    is_sync::<dwcheck::Error>();
}

/// Walks from the module at 0x200000 through the one at 0x100000. Returns whether the walk has the
/// right frames and ends for the right reason.
fn walks_well(process: &Process) -> bool {
    let registers = Registers::from([(6, 0x7000)]);
    let words: [u64; 6] = [0x7020, 0x101010, 0, 0, 0, 0x5000];
    let stack: Vec<u8> = words.iter().flat_map(|word| word.to_le_bytes()).collect();
    let memory = [Block::new(0x7000, &stack)];
    let state = State {
        registers: &registers,
        memory: &memory,
        abi: Abi::X86_64,
    };
    let walk = process.backtrace(0x201010, &state, 9).unwrap();
    let addresses: Vec<u64> = walk.frames.iter().map(|frame| frame.address()).collect();
    addresses == [0x201010, 0x101010, 0x5000] && walk.stop == Stop::NotCovered
}

fn two_modules() -> Process {
    let mut process = process_at(&row_1(), 0x100000);
    add(&mut process, &row_1(), 0x200000).unwrap();
    process
}

/// Looks up both modules and their rows. Returns whether they are the right ones.
fn looks_up_well(process: &Process) -> bool {
    let mut rows = process.rows();
    (0..0x20).all(|place| {
        [(1, 0x101000), (2, 0x201000)].iter().all(|(id, start)| {
            let alone = process.row(start + place);
            let covers =
                |row: &Row| row.id.number() == *id && row.addresses.contains(&(0x1000 + place));
            let module = process.module_at(start + place);
            module.map_or(false, |module| module.id.number() == *id)
                && alone.as_ref().map_or(false, covers)
                && rows.row(start + place) == alone.as_ref()
        })
    })
}

/// The number of threads that read one process.
const READERS: usize = 8;

#[test]
fn threads_read_one_process() {
    let process = two_modules();
    let meet = Barrier::new(READERS);
    thread::scope(|scope| {
        for _ in 0..READERS {
            scope.spawn(|| {
                meet.wait();
                for _ in 0..10 {
                    assert!(walks_well(&process) && looks_up_well(&process));
                    assert!(process.row(0x301000).is_none());
                }
                assert!(walks_well(&process.share().unwrap()));
            });
        }
    });
}

/// A process without modules can be a `static` itself. For one with modules, a `static` can have a
/// reference to a process that is never dropped.
#[test]
fn threads_read_a_static_process() {
    static EMPTY: Process = Process::new(Target::LITTLE_64);
    static CURRENT: RwLock<Option<&Process>> = RwLock::new(None);
    *CURRENT.write().unwrap() = Some(Box::leak(Box::new(two_modules())));
    let readers: Vec<_> = (0..READERS)
        .map(|_| {
            thread::spawn(|| {
                let current: &'static Process = CURRENT.read().unwrap().unwrap();
                assert!(EMPTY.row(0x101000).is_none() && !walks_well(&EMPTY));
                (0..10).all(|_| walks_well(current) && looks_up_well(current))
            })
        })
        .collect();
    for reader in readers {
        assert!(reader.join().unwrap());
    }
}

#[test]
fn threads_share_tables() {
    let mut process = two_modules();
    let walkers: Vec<_> = (0..4)
        .map(|_| {
            let own = process.share().unwrap();
            thread::spawn(move || {
                (0..500).all(|_| {
                    let other = own.share().unwrap();
                    walks_well(&own) && walks_well(&other)
                })
            })
        })
        .collect();
    // the processes of the threads still have both modules
    assert!(process.remove(process.module_at(0x101000).unwrap().id));
    drop(process);
    for walker in walkers {
        assert!(walker.join().unwrap());
    }
}

#[test]
fn a_process_goes_through_a_channel_and_a_lock() {
    let (sender, receiver) = mpsc::channel();
    let maker = thread::spawn(move || sender.send(two_modules()));
    let process = receiver.recv().unwrap();
    maker.join().unwrap().unwrap();
    let locked = Mutex::new(process);
    thread::scope(|scope| {
        for _ in 0..4 {
            scope.spawn(|| {
                for _ in 0..100 {
                    assert!(walks_well(&locked.lock().unwrap()));
                }
            });
        }
    });
}

#[test]
fn a_shared_process_is_its_own() {
    let mut process = two_modules();
    let mut other = process.share().unwrap();
    assert!(other.remove(process.module_at(0x201000).unwrap().id));
    assert!(walks_well(&process) && !walks_well(&other));
    let third = add(&mut other, &row_1(), 0x300000).unwrap();
    assert_eq!(third.number(), 3);
    assert!(process.row(0x301010).is_none() && other.row(0x301010).is_some());
    process.clear();
    assert!(other.row(0x101010).is_some());
    assert!(process.share().unwrap().row(0x101010).is_none());
}

/// All calls work on a stack of 128 KB. That is what musl gives to threads; other common C
/// libraries give more.
#[test]
fn calls_fit_a_small_stack() {
    let walker = thread::Builder::new().stack_size(128 * 1024);
    let walks = walker.spawn(|| {
        let process = two_modules();
        let state = State {
            registers: &Registers::new(),
            memory: &[],
            abi: Abi::X86_64,
        };
        let unwound = process.unwind(0x201010, &state).unwrap();
        let checked = check(
            DebugFrame(&row_1()),
            DebugLoclists(&row_16()),
            Target::LITTLE_64,
        );
        let good = walks_well(&process) && unwound.is_some() && checked.is_ok();
        good && process.row(0x201010).is_some()
    });
    assert!(walks.unwrap().join().unwrap());
}
