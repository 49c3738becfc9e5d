//! A service that keeps sessions: four threads share a typed cache, which loads each session once. A
//! session lives for half an hour after it was loaded, and a listener counts those that end. Prints
//! the number of sessions that were loaded, of requests, and of sessions that have ended.

use mini_moka_proved::sync::Cache;
use mini_moka_proved::Cause;
use std::sync::atomic::{AtomicU64, Ordering};
use std::sync::Arc;
use std::thread;
use std::time::Duration;

const THREADS: u64 = 4;
const SESSIONS: u64 = 5000;

/// The number of a session, random in a real program.
type Id = u128;

struct Session {
    user: String,
}

/// The sessions, and how many have ended.
struct Service {
    sessions: Cache<Id, Arc<Session>>,
    loaded: AtomicU64,
    ended: Arc<AtomicU64>,
}

impl Service {
    fn new() -> Service {
        let ended = Arc::new(AtomicU64::new(0));
        let heard = Arc::clone(&ended);
        let sessions = Cache::builder()
            .max_capacity(100_000)
            .adaptive()
            .time_to_live(Duration::from_secs(30 * 60))
            .eviction_listener(move |_, _, cause| {
                if cause != Cause::Replaced {
                    heard.fetch_add(1, Ordering::Relaxed);
                }
            })
            .build();
        Service {
            sessions,
            loaded: AtomicU64::new(0),
            ended,
        }
    }

    /// Returns a session. A real program would load it from a database.
    fn session(&self, id: Id) -> Arc<Session> {
        self.sessions.get_with(id, || {
            self.loaded.fetch_add(1, Ordering::Relaxed);
            let user = format!("user {}", id % 1000);
            Arc::new(Session { user })
        })
    }

    fn log_out(&self, id: Id) {
        self.sessions.invalidate(&id);
    }
}

fn main() {
    let service = Arc::new(Service::new());
    let threads: Vec<_> = (0..THREADS)
        .map(|_| {
            let service = Arc::clone(&service);
            thread::spawn(move || {
                for id in (0..SESSIONS).map(Id::from) {
                    assert_eq!(service.session(id).user, format!("user {}", id % 1000));
                }
            })
        })
        .collect();
    for thread in threads {
        thread.join().expect("a thread panicked");
    }
    for number in (0..SESSIONS).step_by(5) {
        service.log_out(number.into());
    }
    println!(
        "{} sessions loaded for {} requests, {} have ended",
        service.loaded.load(Ordering::Relaxed),
        THREADS * SESSIONS,
        service.ended.load(Ordering::Relaxed)
    );
}
