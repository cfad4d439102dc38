//! Servers that answer, are silent, or are down: what is fetched from them, and how long that takes.

use dwcheck_debuginfod::{Artifact, Client, Step};
use std::env;
use std::fs;
use std::io::{Read, Write};
use std::net::TcpListener;
use std::sync::atomic::{AtomicUsize, Ordering};
use std::sync::Arc;
use std::thread;
use std::time::{Duration, Instant};

/// How long the library waits, in seconds. All of the rest takes less, also on a busy machine.
const TIMEOUT: u64 = 8;

/// A server that sends an answer to each request, or nothing; and how often it was asked.
fn server(answer: Option<&'static str>) -> (String, Arc<AtomicUsize>) {
    let listener = TcpListener::bind("127.0.0.1:0").unwrap();
    let url = format!("http://{}", listener.local_addr().unwrap());
    let asked = Arc::new(AtomicUsize::new(0));
    let count = Arc::clone(&asked);
    thread::spawn(move || {
        let mut open = Vec::new();
        for stream in listener.incoming() {
            let mut stream = stream.unwrap();
            count.fetch_add(1, Ordering::Relaxed);
            match answer {
                None => open.push(stream),
                Some(answer) => {
                    let _ = stream.read(&mut [0; 4096]);
                    let _ = stream.write_all(answer.as_bytes());
                }
            }
        }
    });
    (url, asked)
}

const MISSING: &str = "HTTP/1.1 404 Not Found\r\nContent-Length: 0\r\nConnection: close\r\n\r\n";
const FOUND: &str = "HTTP/1.1 200 OK\r\nContent-Length: 5\r\nConnection: close\r\n\r\nbytes";

fn client(urls: &str) -> Option<Client> {
    env::set_var("DEBUGINFOD_URLS", urls);
    Client::from_environment(|_: Step<'_>| {}).expect("libdebuginfod.so.1")
}

/// The environment is that of the whole process, so that all of this is one test.
#[test]
fn a_server_costs_one_time_out_and_others_are_asked_even_so() {
    let cache = env::temp_dir().join(format!("dwcheck-debuginfod-{}", std::process::id()));
    env::set_var("DEBUGINFOD_CACHE_PATH", &cache);
    env::set_var("DEBUGINFOD_TIMEOUT", TIMEOUT.to_string());
    assert!(client("").is_none() && client(" ").is_none());

    let ((silent, asked), (missing, _), (good, found)) = (server(None), server(Some(MISSING)), server(Some(FOUND)));
    let down = "http://127.0.0.1:1";
    let mut client = client(&format!("{} {} {} {}", silent, down, missing, good)).unwrap();
    let begin = Instant::now();
    let path = client.find(Artifact::Executable, &[0xab; 20]).expect("the good server has it");
    assert_eq!(fs::read(&path).unwrap(), b"bytes");
    assert!(path.ends_with(format!("{}/executable", "ab".repeat(20))), "{:?}", path);
    for id in 1..4 {
        assert!(client.find(Artifact::DebugInfo, &[id; 20]).is_some());
    }
    assert!(begin.elapsed() < Duration::from_secs(2 * TIMEOUT), "{:?}", begin.elapsed());
    assert_eq!((asked.load(Ordering::Relaxed), found.load(Ordering::Relaxed)), (1, 4));
    let problems = client.problems();
    assert_eq!(problems.len(), 2, "{:?}", problems);
    assert!(problems[0].starts_with(&silent) && problems[1].starts_with(down), "{:?}", problems);

    // What is in the cache needs no server.
    drop(client);
    let mut client = self::client(down).unwrap();
    assert_eq!(client.find(Artifact::Executable, &[0xab; 20]), Some(path));
    assert_eq!(client.find(Artifact::Executable, &[]), None);
    fs::remove_dir_all(cache).unwrap();
}
