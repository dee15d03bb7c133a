//! What `siri serve` is measured against: an ordinary server over std's `TcpListener` that answers each request with the same bytes
//! from memory, one connection after the other, each closed after one answer.
//!
//! `http PORT FILE COUNT` answers COUNT requests at that port of 127.0.0.1 with the body in FILE.
use std::env;
use std::fs;
use std::io::{self, BufRead, BufReader, Read, Write};
use std::net::{TcpListener, TcpStream};

fn main() -> io::Result<()> {
    let words: Vec<String> = env::args().collect();
    let [_, port, file, count] = &words[..] else {
        return Err(io::Error::new(io::ErrorKind::InvalidInput, "PORT FILE COUNT"));
    };
    let body = fs::read(file)?;
    let count = count.parse().map_err(|_| io::ErrorKind::InvalidInput)?;
    let listener = TcpListener::bind(format!("127.0.0.1:{port}"))?;
    for stream in listener.incoming().take(count) {
        // a client that went away is passed over, as `siri serve` does
        let _ = answer(stream?, &body);
    }
    Ok(())
}

fn answer(mut stream: TcpStream, body: &[u8]) -> io::Result<()> {
    let mut reader = BufReader::new(stream.try_clone()?);
    let mut length = 0;
    let mut line = String::new();
    while reader.read_line(&mut line)? > 2 {
        if let Some((_, value)) = line.split_once(':').filter(|(name, _)| name.eq_ignore_ascii_case("content-length")) {
            length = value.trim().parse().unwrap_or(0);
        }
        line.clear();
    }
    let mut request = vec![0; length];
    reader.read_exact(&mut request)?;
    let head = format!(
        "HTTP/1.1 200 OK\r\nContent-Type: application/json\r\nContent-Length: {}\r\nConnection: close\r\n\r\n",
        body.len()
    );
    stream.write_all(head.as_bytes())?;
    stream.write_all(body)
}
