//! What `/proc` says of a process that crashed: whose it is, its program, and the container that it is in.

use dwcheck_elf::text::Escaped;
use serde_json::{json, Value};
use std::fmt;
use std::fs;
use std::time::{SystemTime, UNIX_EPOCH};

/// How many hex digits the id of a container has at least.
const SHORTEST_ID: usize = 32;

/// A process that crashed.
#[derive(Clone, Debug)]
pub struct Crash {
    /// Its id.
    pub id: u32,
    /// Its id in its container, if it is in one with ids of its own.
    pub id_inside: Option<u32>,
    /// The id of its container, as far as the names of its control groups have it.
    pub container: Option<String>,
    /// The name of its first thread. Empty if the process is gone.
    pub name: String,
    /// The ids of its user and its group.
    pub user: Option<u32>,
    pub group: Option<u32>,
    /// The path of its program, as it is in its container.
    pub program: Option<String>,
    /// The time of the report, in seconds since 1970.
    pub time: u64,
}

impl Crash {
    /// Reads what is known of a process. What can't be read is left out.
    pub fn of(id: u32) -> Crash {
        let read = |name: &str| fs::read(format!("/proc/{}/{}", id, name)).unwrap_or_default();
        let text = |name: &str| String::from_utf8_lossy(&read(name)).into_owned();
        let status = text("status");
        let numbers = |key: &str| -> Vec<u32> {
            let line = status.lines().find_map(|line| line.strip_prefix(key)).unwrap_or("");
            line.split_ascii_whitespace().filter_map(|word| word.parse().ok()).collect()
        };
        // The first thread may have ended before others.
        let threads = fs::read_dir(format!("/proc/{}/task", id)).into_iter().flatten().flatten();
        let program = threads.map(|thread| fs::read_link(thread.path().join("exe"))).find_map(Result::ok);
        let since = SystemTime::now().duration_since(UNIX_EPOCH);
        Crash {
            id,
            id_inside: numbers("NSpid:").get(1..).and_then(|inside| inside.last()).copied(),
            container: container_in(&text("cgroup")).filter(|_| !shares_files(id)),
            name: text("comm").trim_end_matches('\n').to_string(),
            user: numbers("Uid:").first().copied(),
            group: numbers("Gid:").first().copied(),
            program: program.map(|path| path.to_string_lossy().into_owned()),
            time: since.map_or(0, |since| since.as_secs()),
        }
    }

    /// The name of the file of a report. Of the process's name, only what is harmless in a name is used.
    pub fn file_name(&self, is_json: bool) -> String {
        let harmless = |c: char| if c.is_ascii_alphanumeric() || "-_".contains(c) { c } else { '_' };
        let name: String = self.name.chars().map(harmless).collect();
        format!("crash.{}.{}.{}.{}", name, self.time, self.id, if is_json { "json" } else { "txt" })
    }

    /// The crash as an object. docs/OUTPUT.md lists the keys.
    pub fn json(&self) -> Value {
        json!({
            "process": self.id,
            "process_inside": self.id_inside,
            "container": self.container,
            "name": self.name,
            "user": self.user,
            "group": self.group,
            "program": self.program,
            "time": self.time,
        })
    }
}

/// The lines of a report that come first.
impl fmt::Display for Crash {
    fn fmt(&self, f: &mut fmt::Formatter<'_>) -> fmt::Result {
        write!(f, "process {} {:?}", self.id, self.name)?;
        self.user.map_or(Ok(()), |user| write!(f, " of user {}", user))?;
        writeln!(f, " at {}", Utc(self.time))?;
        self.program.as_ref().map_or(Ok(()), |program| writeln!(f, "program {}", Escaped(program)))?;
        match (&self.container, self.id_inside) {
            (Some(container), Some(inside)) => writeln!(f, "container {}, process {} there", container, inside),
            (Some(container), None) => writeln!(f, "container {}", container),
            (None, Some(inside)) => writeln!(f, "process {} in its container", inside),
            (None, None) => Ok(()),
        }
    }
}

/// Whether a process sees the same files as this program, so that it isn't in a container.
fn shares_files(id: u32) -> bool {
    let space = |process: &str| fs::read_link(format!("/proc/{}/ns/mnt", process)).ok();
    space(&id.to_string()).map_or(true, |space_of_process| Some(space_of_process) == space("self"))
}

/// The id of a container in the text of `/proc/PID/cgroup`: the longest row of hex digits in a path there, as Docker,
/// Podman and Kubernetes name their groups.
fn container_in(groups: &str) -> Option<String> {
    let runs = groups.split(|c: char| !c.is_ascii_hexdigit());
    runs.filter(|run| run.len() >= SHORTEST_ID).max_by_key(|run| run.len()).map(str::to_string)
}

/// A time as `2026-11-29T17:32:35Z`.
struct Utc(u64);

impl fmt::Display for Utc {
    fn fmt(&self, f: &mut fmt::Formatter<'_>) -> fmt::Result {
        let (days, second) = (self.0 / 86_400, self.0 % 86_400);
        let (year, month, day) = date_of(days);
        let (hour, minute, second) = (second / 3600, second / 60 % 60, second % 60);
        write!(f, "{:04}-{:02}-{:02}T{:02}:{:02}:{:02}Z", year, month, day, hour, minute, second)
    }
}

/// The date so many days after 1970-01-01. Years begin in March here, so that February, whose length differs, is last.
fn date_of(days: u64) -> (u64, u64, u64) {
    const DAYS_OF_400_YEARS: u64 = 146_097;
    const DAYS_BEFORE_1970: u64 = 719_468;
    let days = days.saturating_add(DAYS_BEFORE_1970);
    let (era, day) = (days / DAYS_OF_400_YEARS, days % DAYS_OF_400_YEARS);
    let year = (day - day / 1460 + day / 36_524 - day / 146_096) / 365;
    let day = day - (365 * year + year / 4 - year / 100);
    let month = (5 * day + 2) / 153;
    let (day, month) = (day - (153 * month + 2) / 5 + 1, if month < 10 { month + 3 } else { month - 9 });
    (era * 400 + year + u64::from(month <= 2), month, day)
}

#[cfg(test)]
mod tests {
    use super::*;

    /// The times are those of `date -u -d @N +%FT%TZ`.
    #[test]
    fn times_as_text() {
        let shown = [0, 951_782_400, 1_795_888_717, 4_107_542_399].map(|time| Utc(time).to_string());
        let by_date = ["1970-01-01T00:00:00Z", "2000-02-29T00:00:00Z", "2026-11-28T17:58:37Z", "2100-02-28T23:59:59Z"];
        assert_eq!(shown, by_date);
    }

    #[test]
    fn containers_by_their_groups() {
        let id = "3f2a".repeat(16);
        for path in ["system.slice/docker-ID.scope", "kubepods/besteffort/pod12/ID", "libpod-ID.scope/container"] {
            assert_eq!(container_in(&format!("0::/{}\n", path.replace("ID", &id))), Some(id.clone()));
        }
        assert_eq!(container_in("0::/user.slice/user-1000.slice/session-2.scope\n"), None);
    }
}
