//! Handles of one thing, so that calls of many threads run at the same time.
#![forbid(unsafe_code)]

use std::sync::atomic::{AtomicUsize, Ordering};
use std::sync::{Mutex, MutexGuard, OnceLock, PoisonError, TryLockError};

/// A handle that can make others of the same thing.
pub(crate) trait Share: Sized {
    /// Another handle, if there is memory for it.
    fn share(&mut self) -> Option<Self>;
}

/// So many calls have a handle that is kept. If more run at once, each of the others makes one and drops it.
const PLACES: usize = 64;

/// The number of threads that have made a call beside another one.
static THREADS: AtomicUsize = AtomicUsize::new(0);

thread_local! {
    /// The place that this thread tries first: another one than those of the 63 threads before it.
    static OWN: usize = THREADS.fetch_add(1, Ordering::Relaxed) % PLACES;
}

/// Where a handle is kept, once there was a call that had none.
type Place<H> = Mutex<Option<H>>;

/// A place of a thread. Each call writes its handle, so those of different threads may not lie in one cache line.
#[repr(align(64))]
struct Apart<H>(Place<H>);

/// The handles of one thing.
pub(crate) struct Pool<H> {
    /// The place for all calls until two run at once. So what one thread uses has two handles, and stays small.
    first: Place<H>,
    /// The places from then on.
    places: OnceLock<Vec<Apart<H>>>,
    /// The handle of which others are made. A call has it only if there is no memory for another one.
    origin: Mutex<H>,
}

impl<H: Share> Pool<H> {
    pub(crate) fn new(origin: H) -> Pool<H> {
        Pool { first: Mutex::new(None), places: OnceLock::new(), origin: Mutex::new(origin) }
    }

    /// The result of a call, which has a handle for itself. It waits for no other call, unless memory runs out.
    #[inline]
    pub(crate) fn with<T>(&self, call: impl FnOnce(&mut H) -> T) -> T {
        if let Some(mut place) = self.free_place() {
            if let Some(handle) = self.filled(&mut place) {
                return call(handle);
            }
        }
        self.without_place(call)
    }

    /// The handle in a place, where one is put first if there is none, if there is memory for it.
    #[inline]
    fn filled<'a>(&self, place: &'a mut Option<H>) -> Option<&'a mut H> {
        if place.is_none() {
            *place = self.origin().share();
        }
        place.as_mut()
    }

    /// The result of a call that has a handle which is not kept.
    #[cold]
    fn without_place<T>(&self, call: impl FnOnce(&mut H) -> T) -> T {
        let mut origin = self.origin();
        match origin.share() {
            Some(mut handle) => {
                drop(origin);
                call(&mut handle)
            }
            None => call(&mut origin),
        }
    }

    fn origin(&self) -> MutexGuard<'_, H> {
        self.origin.lock().unwrap_or_else(PoisonError::into_inner)
    }

    /// A place that no call uses.
    #[inline]
    fn free_place(&self) -> Option<MutexGuard<'_, Option<H>>> {
        let places = match self.places.get() {
            Some(places) => places,
            None => match taken(&self.first) {
                Some(first) => return Some(first),
                None => self.many_places()?,
            },
        };
        let (later, sooner) = places.split_at(OWN.with(|own| *own));
        sooner.iter().chain(later).find_map(|place| taken(&place.0))
    }

    /// The places for calls at once, if there is memory for them.
    fn many_places(&self) -> Option<&Vec<Apart<H>>> {
        let mut places = Vec::new();
        places.try_reserve_exact(PLACES).ok()?;
        places.resize_with(PLACES, || Apart(Mutex::new(None)));
        Some(self.places.get_or_init(|| places))
    }
}

/// A place, unless another call uses it.
fn taken<H>(place: &Place<H>) -> Option<MutexGuard<'_, Option<H>>> {
    match place.try_lock() {
        Ok(free) => Some(free),
        Err(TryLockError::Poisoned(free)) => Some(free.into_inner()),
        Err(TryLockError::WouldBlock) => None,
    }
}

#[cfg(test)]
mod tests {
    use std::panic::{catch_unwind, AssertUnwindSafe};
    use std::sync::atomic::{AtomicBool, AtomicUsize, Ordering};
    use std::sync::{Arc, Barrier};
    use std::thread;

    use super::{Apart, Pool, Share, PLACES};

    /// What handles are made of: how many were made and dropped, and whether there is no memory for more.
    #[derive(Default)]
    struct Thing {
        made: AtomicUsize,
        dropped: AtomicUsize,
        is_full: AtomicBool,
    }

    struct Numbered {
        number: usize,
        of: Arc<Thing>,
    }

    impl Share for Numbered {
        fn share(&mut self) -> Option<Numbered> {
            let number = || self.of.made.fetch_add(1, Ordering::Relaxed) + 1;
            (!self.of.is_full.load(Ordering::Relaxed)).then(|| Numbered { number: number(), of: self.of.clone() })
        }
    }

    impl Drop for Numbered {
        fn drop(&mut self) {
            self.of.dropped.fetch_add(1, Ordering::Relaxed);
        }
    }

    /// A pool whose first handle has the number 0.
    fn pool() -> (Arc<Thing>, Pool<Numbered>) {
        let of = Arc::new(Thing::default());
        (of.clone(), Pool::new(Numbered { number: 0, of }))
    }

    /// The numbers of the handles of so many calls, each within the one before.
    fn nested(pool: &Pool<Numbered>, calls: usize) -> Vec<usize> {
        if calls == 0 {
            return Vec::new();
        }
        pool.with(|handle| {
            let mut numbers = nested(pool, calls - 1);
            numbers.push(handle.number);
            numbers
        })
    }

    #[test]
    fn calls_one_after_another_use_one_handle() {
        let (thing, pool) = pool();
        assert_eq!([0; 3].map(|_| pool.with(|handle| handle.number)), [1; 3]);
        assert_eq!((thing.made.load(Ordering::Relaxed), pool.places.get().is_none()), (1, true));
    }

    #[test]
    fn calls_at_once_have_a_handle_each() {
        let (thing, pool) = pool();
        for _ in 0..2 {
            let mut numbers = nested(&pool, PLACES + 9);
            numbers.sort();
            numbers.dedup();
            assert_eq!((numbers.len(), numbers.contains(&0)), (PLACES + 9, false));
        }
        // (the first place is one more)
        assert_eq!(thing.dropped.load(Ordering::Relaxed), 8 + 9);
        drop(pool);
        assert_eq!(thing.dropped.load(Ordering::Relaxed), thing.made.load(Ordering::Relaxed) + 1);
    }

    #[test]
    fn handles_of_threads_lie_in_different_cache_lines() {
        assert_eq!((align_of::<Apart<[u64; 4]>>(), size_of::<Apart<[u64; 4]>>()), (64, 64));
    }

    #[test]
    fn calls_of_threads_do_not_wait_for_each_other() {
        let (_, pool) = pool();
        let threads = PLACES + 9;
        let (all, pool) = (Barrier::new(threads), &pool);
        thread::scope(|scope| {
            for _ in 0..threads {
                let all = &all;
                scope.spawn(move || pool.with(|_| all.wait()));
            }
        });
    }

    #[test]
    fn without_memory_a_call_has_the_first_handle() {
        let (thing, pool) = pool();
        thing.is_full.store(true, Ordering::Relaxed);
        assert_eq!([0; 2].map(|_| pool.with(|handle| handle.number)), [0, 0]);
        thing.is_full.store(false, Ordering::Relaxed);
        assert_eq!(pool.with(|handle| handle.number), 1);
        thing.is_full.store(true, Ordering::Relaxed);
        assert_eq!(nested(&pool, 2), [0, 1]);
    }

    #[test]
    fn a_call_that_panics_leaves_its_handle() {
        let (thing, pool) = pool();
        thing.is_full.store(true, Ordering::Relaxed);
        assert!(catch_unwind(AssertUnwindSafe(|| pool.with(|_| panic!("on purpose")))).is_err());
        thing.is_full.store(false, Ordering::Relaxed);
        let nested = || pool.with(|_| pool.with(|_| panic!("on purpose")));
        assert!(catch_unwind(AssertUnwindSafe(nested)).is_err());
        assert_eq!([0; 2].map(|_| pool.with(|handle| handle.number)), [2, 2]);
    }
}
