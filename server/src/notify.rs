//! What systemd is told, where it has started the server: that it is ready, that it ends, and that it lives.
//!
//! The unit has `Type=notify`, so systemd hands over a socket's name in the environment, and waits for `READY=1`. With
//! `WatchdogSec=` it also wants to hear from the server within that time. Elsewhere nothing is told to anybody.
//!
//! ```text
//! NOTIFY_SOCKET=/run/systemd/notify     a socket in the file system
//! NOTIFY_SOCKET=@name                   an abstract one
//! WATCHDOG_USEC=30000000                it is told each 15 seconds
//! ```
//!
//! What can't be told is let go: the server serves nonetheless.

use std::os::linux::net::SocketAddrExt;
use std::os::unix::net::{SocketAddr, UnixDatagram};
use std::time::Duration;

pub struct Notify {
    to: Option<(UnixDatagram, SocketAddr)>,
    /// How often systemd is told that the server lives.
    pub every: Option<Duration>,
}

impl Notify {
    pub fn from_environment() -> Notify {
        let word = |name: &str| std::env::var(name).ok();
        Notify::new(word("NOTIFY_SOCKET").as_deref(), word("WATCHDOG_USEC").as_deref())
    }

    pub fn new(socket: Option<&str>, watchdog: Option<&str>) -> Notify {
        let to = socket.and_then(address).and_then(|to| Some((UnixDatagram::unbound().ok()?, to)));
        let every = watchdog.and_then(|word| word.parse().ok()).filter(|&it| it > 0);
        Notify { to, every: every.map(|whole| Duration::from_micros(whole) / 2) }
    }

    pub fn ready(&self, place: &str) {
        self.tell(&format!("READY=1\nSTATUS=serves on {place}"));
    }

    pub fn stopping(&self) {
        self.tell("STOPPING=1\nSTATUS=ends");
    }

    pub fn lives(&self) {
        self.tell("WATCHDOG=1");
    }

    fn tell(&self, what: &str) {
        if let Some((socket, to)) = &self.to {
            let _ = socket.send_to_addr(what.as_bytes(), to);
        }
    }
}

fn address(name: &str) -> Option<SocketAddr> {
    match name.strip_prefix('@') {
        Some(abstract_name) => SocketAddr::from_abstract_name(abstract_name).ok(),
        None => SocketAddr::from_pathname(name).ok(),
    }
}

#[cfg(test)]
mod tests {
    use super::*;

    fn told(socket: &UnixDatagram) -> String {
        socket.set_read_timeout(Some(Duration::from_secs(5))).expect("a time");
        let mut room = [0; 100];
        let length = socket.recv(&mut room).expect("something is told");
        String::from_utf8(room[..length].to_vec()).expect("text")
    }

    #[test]
    fn it_is_told_to_a_socket_of_either_kind() {
        let name = format!("ripsawbean-notify-{}", std::process::id());
        let path = std::env::temp_dir().join(&name);
        let _ = std::fs::remove_file(&path);
        let file = UnixDatagram::bind(&path).expect("a socket");
        let bare = UnixDatagram::bind_addr(&SocketAddr::from_abstract_name(&name).expect("a name")).expect("a socket");
        let path = path.to_str().expect("a name");
        for (socket, to) in [(&file, path), (&bare, format!("@{name}").as_str())] {
            let notify = Notify::new(Some(to), Some("30000000"));
            assert_eq!(notify.every, Some(Duration::from_secs(15)));
            notify.ready("http://127.0.0.1:7077");
            assert_eq!(told(socket), "READY=1\nSTATUS=serves on http://127.0.0.1:7077");
            notify.lives();
            assert_eq!(told(socket), "WATCHDOG=1");
            notify.stopping();
            assert_eq!(told(socket), "STOPPING=1\nSTATUS=ends");
        }
        std::fs::remove_file(path).expect("it is there");
    }

    #[test]
    fn elsewhere_nothing_is_told() {
        for (socket, watchdog) in [(None, None), (Some(""), Some("no number")), (Some("/no/such/socket"), Some("0"))] {
            let notify = Notify::new(socket, watchdog);
            assert_eq!(notify.every, None);
            notify.ready("nowhere");
        }
    }
}
