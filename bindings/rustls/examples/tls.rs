//! A client that posts bytes by HTTP over TLS 1.3 or TLS 1.2, and a server that sends them back, for localhost alone.
//!
//! - `tls serve PROVIDER CERTIFICATE KEY N`: prints its port, serves N connections, and ends.
//! - `tls post PROVIDER ROOTS SUITE PORT`: posts standard input, and writes what comes back to standard output.
//!
//! PROVIDER is `deerlapse` or `ring`, whose AES-GCM is used; CERTIFICATE, KEY and ROOTS are PEM files; SUITE is named as
//! rustls does, for example `TLS13_AES_128_GCM_SHA256`.

mod common;

use common::Result;
use rustls::{ClientConnection, ServerConfig, ServerConnection, StreamOwned};
use std::env;
use std::io::{self, BufRead, BufReader, Read, Write};
use std::net::{Ipv4Addr, TcpListener, TcpStream};
use std::sync::Arc;
use std::time::Duration;

const TIMEOUT: Duration = Duration::from_secs(60);

/// Reads the head of a request or a response, and the body after it, whose length it says.
fn read_body(from: &mut impl BufRead) -> Result<Vec<u8>> {
    let mut len = 0;
    loop {
        let mut line = String::new();
        from.read_line(&mut line)?;
        let line = line.trim_end().to_ascii_lowercase();
        if line.is_empty() {
            break;
        }
        if let Some(value) = line.strip_prefix("content-length:") {
            len = value.trim().parse()?;
        }
    }
    let mut body = vec![0; len];
    from.read_exact(&mut body)?;
    Ok(body)
}

/// Sends back what one client posts.
fn serve_one(config: Arc<ServerConfig>, socket: TcpStream) -> Result<()> {
    socket.set_read_timeout(Some(TIMEOUT))?;
    let mut stream = BufReader::new(StreamOwned::new(ServerConnection::new(config)?, socket));
    let body = read_body(&mut stream)?;
    let stream = stream.get_mut();
    let len = body.len();
    write!(
        stream,
        "HTTP/1.1 200 OK\r\nContent-Length: {len}\r\nConnection: close\r\n\r\n"
    )?;
    let (first, second) = body.split_at(len / 2);
    stream.write_all(first)?;
    // New keys for the second half: RFC 8446 section 4.6.3. TLS 1.2 has no such message.
    if stream.conn.protocol_version() == Some(rustls::ProtocolVersion::TLSv1_3) {
        stream.conn.refresh_traffic_keys()?;
    }
    stream.write_all(second)?;
    stream.conn.send_close_notify();
    stream.flush()?;
    let suite = stream.conn.negotiated_cipher_suite().map(|it| it.suite());
    println!("served {len} bytes by {suite:?}");
    Ok(())
}

fn serve(provider: &str, certificate: &str, key: &str, connections: &str) -> Result<()> {
    let config = Arc::new(common::server(provider, certificate, key)?);
    let listener = TcpListener::bind((Ipv4Addr::LOCALHOST, 0))?;
    println!("port {}", listener.local_addr()?.port());
    for _ in 0..connections.parse()? {
        serve_one(config.clone(), listener.accept()?.0)?;
    }
    Ok(())
}

fn post(provider: &str, roots: &str, suite: &str, port: &str) -> Result<()> {
    let config = Arc::new(common::client(provider, roots, suite)?);
    let mut body = Vec::new();
    io::stdin().read_to_end(&mut body)?;
    let socket = TcpStream::connect((Ipv4Addr::LOCALHOST, port.parse()?))?;
    socket.set_read_timeout(Some(TIMEOUT))?;
    let connection = ClientConnection::new(config, "localhost".try_into()?)?;
    let mut stream = StreamOwned::new(connection, socket);
    let len = body.len();
    write!(
        stream,
        "POST / HTTP/1.1\r\nHost: localhost\r\nContent-Length: {len}\r\n\r\n"
    )?;
    stream.write_all(&body)?;
    let echoed = read_body(&mut BufReader::new(&mut stream))?;
    let suite = stream.conn.negotiated_cipher_suite().map(|it| it.suite());
    eprintln!("{:?} {suite:?}", stream.conn.protocol_version());
    io::stdout().write_all(&echoed)?;
    Ok(())
}

fn main() -> Result<()> {
    let arguments: Vec<String> = env::args().skip(1).collect();
    let arguments: Vec<&str> = arguments.iter().map(String::as_str).collect();
    match arguments[..] {
        ["serve", provider, certificate, key, n] => serve(provider, certificate, key, n),
        ["post", provider, roots, suite, port] => post(provider, roots, suite, port),
        _ => Err(
            "use: tls serve PROVIDER CERTIFICATE KEY N, tls post PROVIDER ROOTS SUITE PORT".into(),
        ),
    }
}
