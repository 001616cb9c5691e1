//! Handles that all hold the same regex or the same set, so that threads search at the same time.
//!
//! A handle serves one search at a time. A search borrows a handle that no other search has, and gives it back when it ends. A thread
//! looks first at the place that it used before. Where all handles are borrowed the caller builds one more, so there are never more
//! handles than searches at the same time, and no search waits for another.

use crate::error::Result;
use crate::handle::Owned;
use std::cell::Cell;
use std::mem;
use std::ops::Deref;
use std::panic::{RefUnwindSafe, UnwindSafe};
use std::sync::atomic::{AtomicU8, AtomicUsize, Ordering};
use std::sync::{Mutex, MutexGuard, PoisonError};

/// How many handles are reached without a lock.
const PLACES: usize = 8;

/// The handle of the place holds nothing.
const EMPTY: u8 = 0;
/// The handle of the place holds what was built, and no search has it.
const FREE: u8 = 1;
/// A search has the handle of the place.
const BORROWED: u8 = 2;

/// A place of a handle, on a cache line of its own.
#[repr(align(64))]
pub(crate) struct Place {
    state: AtomicU8,
    handle: Owned,
}

// The handle of a place is used by nobody but the search that set its state to BORROWED. Only one search can, since it exchanges the
// state; and the calls of one search come before those of the next, since the next one's exchange acquires what the first one's store of
// FREE or EMPTY released.
unsafe impl Sync for Place {}

// No search changes the regex or the set of a handle, whether it ends by an answer or an error, and the memory that it leaves there changes
// no answer: that is proved of the library's calls. The library never unwinds.
impl UnwindSafe for Place {}
impl RefUnwindSafe for Place {}

impl Place {
    fn new() -> Place {
        Place {
            state: AtomicU8::new(EMPTY),
            handle: Owned::empty(),
        }
    }

    /// Borrows the handle if its state is this one.
    #[inline]
    fn is_borrowed_from(&self, state: u8) -> bool {
        self.state.load(Ordering::Relaxed) == state
            && self
                .state
                .compare_exchange(state, BORROWED, Ordering::Acquire, Ordering::Relaxed)
                .is_ok()
    }
}

/// Handles that all hold the same.
pub(crate) struct Pool {
    places: [Place; PLACES],
    /// Handles for more searches at the same time than there are places.
    spare: Mutex<Vec<Owned>>,
}

impl Pool {
    /// No handle yet.
    pub fn new() -> Pool {
        Pool {
            places: std::array::from_fn(|_| Place::new()),
            spare: Mutex::new(Vec::new()),
        }
    }

    /// One handle, which has been built.
    pub fn of(first: Owned) -> Pool {
        let mut pool = Pool::new();
        pool.places[own_place()] = Place {
            state: AtomicU8::new(FREE),
            handle: first,
        };
        pool
    }

    /// Makes a search with a handle that no other search has. If there is none, one is built; its error may be that of building it.
    #[inline]
    pub fn with<T>(
        &self,
        build: impl Fn(&Owned) -> Result<()>,
        search: impl FnOnce(&Owned) -> Result<T>,
    ) -> Result<T> {
        let own = own_place();
        let place = &self.places[own % PLACES];
        if place.is_borrowed_from(FREE) {
            let own = Own(place);
            return search(&own.0.handle);
        }
        search(&*self.borrow(own, build)?)
    }

    /// A handle that no other search has, looked for from this place on.
    #[cold]
    fn borrow(&self, own: usize, build: impl Fn(&Owned) -> Result<()>) -> Result<Borrowed<'_>> {
        let places = || (0..PLACES).map(|step| &self.places[(own + step) % PLACES]);
        if let Some(place) = places().find(|place| place.is_borrowed_from(FREE)) {
            return Ok(Borrowed::Place { place, after: FREE });
        }
        if let Some(place) = places().find(|place| place.is_borrowed_from(EMPTY)) {
            let mut borrowed = Borrowed::Place {
                place,
                after: EMPTY,
            };
            build(&borrowed)?;
            borrowed.keep();
            return Ok(borrowed);
        }
        let spare = self.spare().pop();
        let handle = match spare {
            Some(handle) => handle,
            None => {
                let handle = Owned::empty();
                build(&handle)?;
                handle
            }
        };
        Ok(Borrowed::Spare { handle, pool: self })
    }

    fn spare(&self) -> MutexGuard<'_, Vec<Owned>> {
        self.spare.lock().unwrap_or_else(PoisonError::into_inner)
    }
}

/// The number of the place that this thread looks at first.
#[inline]
fn own_place() -> usize {
    thread_local! {
        static NUMBER: Cell<Option<usize>> = const { Cell::new(None) };
    }
    NUMBER.with(|number| match number.get() {
        Some(own) => own,
        None => {
            let own = next_place();
            number.set(Some(own));
            own
        }
    })
}

/// A number for a thread that has none yet: the places are given in turn.
#[cold]
fn next_place() -> usize {
    static THREADS: AtomicUsize = AtomicUsize::new(0);
    THREADS.fetch_add(1, Ordering::Relaxed) % PLACES
}

/// The place that a thread looks at first, borrowed while its handle was free. It is so again when this is dropped, also by a panic.
struct Own<'p>(&'p Place);

impl Drop for Own<'_> {
    #[inline]
    fn drop(&mut self) {
        self.0.state.store(FREE, Ordering::Release);
    }
}

/// A handle that one search has, until it drops it. It never leaves the call that borrowed it.
enum Borrowed<'p> {
    /// That of a place, and the state of the place afterwards.
    Place { place: &'p Place, after: u8 },
    /// One more.
    Spare { handle: Owned, pool: &'p Pool },
}

impl Borrowed<'_> {
    /// Has the place keep what was built.
    fn keep(&mut self) {
        if let Borrowed::Place { after, .. } = self {
            *after = FREE;
        }
    }
}

impl Deref for Borrowed<'_> {
    type Target = Owned;

    fn deref(&self) -> &Owned {
        match self {
            Borrowed::Place { place, .. } => &place.handle,
            Borrowed::Spare { handle, .. } => handle,
        }
    }
}

impl Drop for Borrowed<'_> {
    fn drop(&mut self) {
        match self {
            Borrowed::Place { place, after } => place.state.store(*after, Ordering::Release),
            Borrowed::Spare { handle, pool } => {
                pool.spare().push(mem::replace(handle, Owned::empty()));
            }
        }
    }
}

#[cfg(test)]
mod tests {
    use super::*;
    use crate::error::Error;
    use std::ptr;

    #[test]
    fn a_handle_is_borrowed_once() {
        let built = Cell::new(0);
        let build = |_: &Owned| {
            built.set(built.get() + 1);
            Ok(())
        };
        let pool = Pool::of(Owned::empty());
        for _ in 0..2 {
            let borrowed: Vec<Borrowed<'_>> = (0..20)
                .map(|_| pool.borrow(own_place(), build).expect("nothing fails"))
                .collect();
            for (count, one) in borrowed.iter().enumerate() {
                let others = &borrowed[..count];
                assert!(others
                    .iter()
                    .all(|other| !ptr::eq::<Owned>(&**other, &**one)));
            }
            assert_eq!(built.get(), 19);
        }
    }

    #[test]
    fn a_failed_build_is_tried_again() {
        let pool = Pool::new();
        for _ in 0..2 * PLACES {
            assert!(pool.with(|_| Err(Error::Memory), |_| Ok(())).is_err());
        }
        assert!(pool.with(|_| Ok(()), |_| Ok(())).is_ok());
        assert!(pool.with(|_| Err(Error::Memory), |_| Ok(())).is_ok());
    }
}
