//! Writes to syslog and to systemd's journal, by their sockets.

use crate::crash::Crash;
use nix::sys::signal::Signal;
use std::io;
use std::os::unix::net::UnixDatagram;
use std::path::{Path, PathBuf};
use std::time::Duration;

const SYSLOG: &str = "/dev/log";
const JOURNAL: &str = "/run/systemd/journal/socket";

/// The name under which is logged.
const NAME: &str = "dwcheck-elf";

/// The priority `crit`, which systemd-coredump has too, and that of the facility `user` with it.
const CRITICAL: u8 = 2;
const USER_CRITICAL: u8 = 8 + CRITICAL;

/// The most lines that syslog gets, and the most bytes of each. Some that listen take no more than 1,024 (RFC 3164).
const MOST_LINES: usize = 200;
const LONGEST_LINE: usize = 900;

/// The most bytes that the journal gets in a message: the kernel passes no more than 212,992 at once.
const LONGEST_MESSAGE: usize = 128 << 10;

/// The id of messages about crashes, by which coredumpctl finds them (`SD_MESSAGE_COREDUMP`).
const MESSAGE_ID: &str = "fc2e22bc6ee647b6b90729ab34a250b1";

/// How long a log may take a message.
const PATIENCE: Duration = Duration::from_secs(1);

fn connected(path: &str) -> io::Result<UnixDatagram> {
    let socket = UnixDatagram::unbound()?;
    socket.connect(Path::new(path))?;
    socket.set_write_timeout(Some(PATIENCE))?;
    Ok(socket)
}

/// Sends each line to syslog.
pub fn to_syslog(message: &str) -> io::Result<()> {
    let socket = connected(SYSLOG)?;
    let count = message.lines().count();
    let left_out = (count > MOST_LINES).then(|| format!("{} lines left out", count - MOST_LINES));
    for line in message.lines().take(MOST_LINES).map(|line| beginning(line, LONGEST_LINE)).chain(left_out.as_deref()) {
        socket.send(format!("<{}>{}[{}]: {}", USER_CRITICAL, NAME, std::process::id(), line).as_bytes())?;
    }
    Ok(())
}

/// Sends a message to the journal, with the fields by which coredumpctl lists crashes.
pub fn to_journal(message: &str, crash: &Crash, signal: Option<u32>, report: Option<&PathBuf>) -> io::Result<()> {
    let name = signal.and_then(|number| Signal::try_from(number as i32).ok()).map(|signal| signal.to_string());
    let number = |number: Option<u32>| number.map(|number| number.to_string());
    let fields = [
        ("MESSAGE", Some(beginning(message, LONGEST_MESSAGE).to_string())),
        ("MESSAGE_ID", Some(MESSAGE_ID.to_string())),
        ("PRIORITY", Some(CRITICAL.to_string())),
        ("SYSLOG_IDENTIFIER", Some(NAME.to_string())),
        ("COREDUMP_PID", Some(crash.id.to_string())),
        ("COREDUMP_UID", number(crash.user)),
        ("COREDUMP_GID", number(crash.group)),
        ("COREDUMP_SIGNAL", number(signal)),
        ("COREDUMP_SIGNAL_NAME", name),
        ("COREDUMP_TIMESTAMP", Some((crash.time * 1_000_000).to_string())),
        ("COREDUMP_COMM", Some(crash.name.clone())),
        ("COREDUMP_EXE", crash.program.clone()),
        ("DWCHECK_REPORT", report.map(|path| path.to_string_lossy().into_owned())),
    ];
    let known = fields.iter().filter_map(|(name, value)| Some((*name, value.as_deref()?)));
    connected(JOURNAL)?.send(&known.flat_map(|(name, value)| field(name, value)).collect::<Vec<u8>>()).map(drop)
}

/// A field as the journal takes it, with its size, so that it may have line feeds.
fn field(name: &str, value: &str) -> Vec<u8> {
    let size = (value.len() as u64).to_le_bytes();
    [name.as_bytes(), b"\n", &size, value.as_bytes(), b"\n"].concat()
}

/// At most so many bytes of a text.
fn beginning(text: &str, most: usize) -> &str {
    let end = (0..=most.min(text.len())).rev().find(|end| text.is_char_boundary(*end));
    text.get(..end.unwrap_or(0)).unwrap_or("")
}

#[cfg(test)]
mod tests {
    use super::{beginning, field};

    /// As systemd's page "Native Journal Protocol" says.
    #[test]
    fn a_field_has_its_size() {
        assert_eq!(field("MESSAGE", "a\nb"), b"MESSAGE\n\x03\0\0\0\0\0\0\0a\nb\n");
    }

    #[test]
    fn texts_are_cut_between_characters() {
        assert_eq!((beginning("aé", 2), beginning("aé", 3), beginning("aé", 9)), ("a", "aé", "aé"));
    }
}
