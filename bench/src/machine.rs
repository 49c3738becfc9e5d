//! Measures the load of the machine by the counters of Linux. On other systems it is unknown.
use std::fs;
use std::thread::sleep;
use std::time::Duration;

/// Time of all processors together so far, in ticks of the system's clock.
struct Ticks {
    processors: usize,
    total: u64,
    idle: u64,
}

/// Reads `/proc/stat`. Its first line has the ticks of user, nice, system, idle, iowait, irq, softirq and steal. Each processor has a line of its own after it.
fn ticks() -> Option<Ticks> {
    let stat = fs::read_to_string("/proc/stat").ok()?;
    let mut lines = stat.lines();
    let counts: Vec<u64> = lines
        .next()?
        .strip_prefix("cpu ")?
        .split_whitespace()
        .take(8)
        .map_while(|word| word.parse().ok())
        .collect();
    Some(Ticks {
        processors: lines.take_while(|line| line.starts_with("cpu")).count(),
        total: counts.iter().sum(),
        idle: counts.get(3)? + counts.get(4)?,
    })
}

/// Returns the ticks that a process and all its threads have taken. They come after its name, which may have spaces and ends with a bracket.
fn ticks_of(process: u32) -> Option<u64> {
    let stat = fs::read_to_string(format!("/proc/{process}/stat")).ok()?;
    let (_, behind) = stat.rsplit_once(')')?;
    let mut words = behind.split_whitespace().skip(11);
    let user: u64 = words.next()?.parse().ok()?;
    let system: u64 = words.next()?.parse().ok()?;
    Some(user + system)
}

/// State of the processors at a start, with the ticks that some processes of ours had taken.
pub struct Watch {
    processes: Vec<u32>,
    ticks: Option<Ticks>,
    own: Option<u64>,
}

impl Watch {
    pub fn start(processes: &[u32]) -> Watch {
        let processes = processes.to_vec();
        Watch {
            ticks: ticks(),
            own: own(&processes),
            processes,
        }
    }

    /// Returns the number of processors that were idle or ours since the start. Other programs or the host had the rest.
    pub fn free(&self) -> Option<f64> {
        let (then, now) = (self.ticks.as_ref()?, ticks()?);
        let own = own(&self.processes)? - self.own?;
        let free = now.idle - then.idle + own;
        Some((now.processors as f64) * free as f64 / (now.total - then.total) as f64)
    }
}

fn own(processes: &[u32]) -> Option<u64> {
    processes.iter().map(|process| ticks_of(*process)).sum()
}

/// Describes the machine's processors and its present load. Takes a second.
pub fn describe() -> String {
    let Some(ticks) = ticks() else {
        return "The load of the machine is unknown".into();
    };
    let watch = Watch::start(&[]);
    sleep(Duration::from_secs(1));
    let idle = watch.free().map_or("?".into(), |free| format!("{free:.1}"));
    let load = fs::read_to_string("/proc/loadavg").unwrap_or_default();
    let load: Vec<&str> = load.split_whitespace().take(3).collect();
    format!(
        "{idle} of {} processors were idle before the run, at a load of {}",
        ticks.processors,
        load.join(", ")
    )
}
