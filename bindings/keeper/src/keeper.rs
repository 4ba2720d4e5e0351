//! The keeper of one ledger: what a front calls.

use std::io;
use std::sync::atomic::{AtomicU64, Ordering};

use perdigolh::{ledger_bytes, Ledger, LEDGER_LEAST, LEDGER_MOST};

use crate::journal::{self, Left};
use crate::{chance, frame, Change, Engine, Failure, Kept, Name, Options, Step};

type Time = Box<dyn Fn() -> u64 + Send + Sync>;
type Draw = Box<dyn Fn() -> io::Result<[u8; 32]> + Send + Sync>;

pub struct Keeper<E> {
    engine: E,
    name: Name,
    time: Option<Time>,
    draw: Draw,
    /// The latest step that this keeper saw stored.
    seen: AtomicU64,
}

impl<E: Engine> Keeper<E> {
    pub fn new(engine: E, name: &str) -> Result<Keeper<E>, Failure> {
        let name = Name::new(name)?;
        Ok(Keeper { engine, name, time: None, draw: Box::new(chance::fresh), seen: AtomicU64::new(0) })
    }

    /// The time is asked of this function, under the lock, and not of the engine.
    pub fn with_time(mut self, time: impl Fn() -> u64 + Send + Sync + 'static) -> Keeper<E> {
        self.time = Some(Box::new(time));
        self
    }

    /// Fresh values are drawn from this source, and not from the system's.
    pub fn with_fresh(mut self, draw: impl Fn() -> io::Result<[u8; 32]> + Send + Sync + 'static) -> Keeper<E> {
        self.draw = Box::new(draw);
        self
    }

    /// Starts the ledger of this name, once and for all: a second start fails and changes nothing.
    pub fn start(&self, records: usize, options: Options) -> Result<(), Failure> {
        if !(LEDGER_LEAST..=LEDGER_MOST).contains(&records) {
            return Err(Failure::not_made("a ledger has 1 to 200 records"));
        }
        self.engine.exchange(&self.name, &mut |stored, _| {
            if stored.is_some() {
                return Err(Failure::Started);
            }
            let mut ledger = vec![0; ledger_bytes(records)];
            Ledger::start(&mut ledger).map_err(Failure::not_made)?;
            let kept = Kept { step: 1, options, ledger, memo: Vec::new(), table: Vec::new() };
            let calls = format!("> {}\n< {}\n", frame::start(records as u8), frame::DONE);
            let block = journal::block(Left::by(None), Left::by(Some(&kept)), &calls);
            Ok(Change { kept: Some(kept), journal: if options.journal { block } else { String::new() } })
        })?;
        self.seen.fetch_max(1, Ordering::Relaxed);
        Ok(())
    }

    /// Runs calls on the ledger, as one step under its lock. What `run` gives back comes out once all that the calls left is
    /// stored, and not before; on a failure it is dropped.
    pub fn call<T>(&self, run: impl FnOnce(&mut Step<'_>) -> T) -> Result<T, Failure> {
        let (mut run, mut answer, mut reached) = (Some(run), None, 0);
        self.engine.exchange(&self.name, &mut |stored, time| {
            let before = stored.ok_or(Failure::NoLedger)?;
            let known = self.seen.load(Ordering::Relaxed);
            if before.step < known {
                return Err(Failure::OldCopy { stored: before.step, known });
            }
            let time = self.time.as_ref().map_or(time, |own| own());
            let mut step = Step::on(before, time, &*self.draw);
            answer = run.take().map(|run| run(&mut step));
            let change = step.change(before)?;
            reached = change.kept.as_ref().map_or(before.step, |kept| kept.step);
            Ok(change)
        })?;
        self.seen.fetch_max(reached, Ordering::Relaxed);
        answer.ok_or_else(|| Failure::not_made("the engine ran no step"))
    }
}
