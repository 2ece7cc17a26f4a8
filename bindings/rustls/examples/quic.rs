//! A client that sends bytes by quinn on a QUIC stream, and a server that sends them back, for localhost alone. Both renew
//! their keys in the middle (RFC 9001 section 6), and the server asks for a Retry (RFC 9000 section 8.1.2).
//!
//! - `quic serve PROVIDER CERTIFICATE KEY N`: prints its port, serves N connections, and ends.
//! - `quic post PROVIDER ROOTS SUITE PORT`: sends standard input, and writes what comes back to standard output.
//!
//! The arguments are those of the example `tls`. SUITE is of TLS 1.3.

mod common;

use common::Result;
use quinn::crypto::rustls::{QuicClientConfig, QuicServerConfig};
use quinn::{ClientConfig, Endpoint, SendStream, ServerConfig};
use rustls::quic::Suite;
use rustls::CipherSuite;
use std::env;
use std::io::{self, Read, Write};
use std::net::Ipv4Addr;
use std::sync::Arc;

const MAX_LEN: usize = 1 << 26;

/// Sends bytes on a stream, with new keys for the second half.
async fn send(connection: &quinn::Connection, stream: &mut SendStream, bytes: &[u8]) -> Result<()> {
    let (first, second) = bytes.split_at(bytes.len() / 2);
    stream.write_all(first).await?;
    connection.force_key_update();
    stream.write_all(second).await?;
    Ok(stream.finish()?)
}

/// Sends back what one client sends.
async fn serve_one(endpoint: &Endpoint) -> Result<()> {
    let attempt = endpoint.accept().await.ok_or("the endpoint is closed")?;
    attempt.retry()?;
    let attempt = endpoint.accept().await.ok_or("the endpoint is closed")?;
    let validated = attempt.remote_address_validated();
    let connection = attempt.await?;
    let (mut to, mut from) = connection.accept_bi().await?;
    let bytes = from.read_to_end(MAX_LEN).await?;
    send(&connection, &mut to, &bytes).await?;
    connection.closed().await;
    println!("served {} bytes, after a Retry: {validated}", bytes.len());
    Ok(())
}

async fn serve(provider: &str, certificate: &str, key: &str, connections: &str) -> Result<()> {
    let config = common::server(provider, certificate, key)?;
    let config = QuicServerConfig::try_from(config)?;
    let config = ServerConfig::with_crypto(Arc::new(config));
    let endpoint = Endpoint::server(config, (Ipv4Addr::LOCALHOST, 0).into())?;
    println!("port {}", endpoint.local_addr()?.port());
    for _ in 0..connections.parse()? {
        serve_one(&endpoint).await?;
    }
    Ok(())
}

/// The QUIC keys of a provider for the packets of a connection's start, which are AES-128-GCM's (RFC 9001 section 5.2).
fn initial(of: &str) -> Result<Suite> {
    let suites = common::provider(of)?.cipher_suites;
    let mut of_tls13 = suites.iter().filter_map(|suite| suite.tls13());
    of_tls13
        .find(|it| it.common.suite == CipherSuite::TLS13_AES_128_GCM_SHA256)
        .and_then(|suite| suite.quic_suite())
        .ok_or_else(|| "the provider has no such keys".into())
}

async fn post(provider: &str, roots: &str, suite: &str, port: &str) -> Result<()> {
    let config = Arc::new(common::client(provider, roots, suite)?);
    let config = QuicClientConfig::with_initial(config, initial(provider)?)?;
    let mut endpoint = Endpoint::client((Ipv4Addr::LOCALHOST, 0).into())?;
    endpoint.set_default_client_config(ClientConfig::new(Arc::new(config)));
    let mut bytes = Vec::new();
    io::stdin().read_to_end(&mut bytes)?;
    let address = (Ipv4Addr::LOCALHOST, port.parse()?).into();
    let connection = endpoint.connect(address, "localhost")?.await?;
    let (mut to, mut from) = connection.open_bi().await?;
    send(&connection, &mut to, &bytes).await?;
    let echoed = from.read_to_end(MAX_LEN).await?;
    let path = connection.stats().path;
    eprintln!(
        "{} packets sent, {} lost",
        path.sent_packets, path.lost_packets
    );
    connection.close(0u32.into(), b"done");
    endpoint.wait_idle().await;
    io::stdout().write_all(&echoed)?;
    Ok(())
}

#[tokio::main(flavor = "current_thread")]
async fn main() -> Result<()> {
    let arguments: Vec<String> = env::args().skip(1).collect();
    let arguments: Vec<&str> = arguments.iter().map(String::as_str).collect();
    match arguments[..] {
        ["serve", provider, certificate, key, n] => serve(provider, certificate, key, n).await,
        ["post", provider, roots, suite, port] => post(provider, roots, suite, port).await,
        _ => Err(
            "use: quic serve PROVIDER CERTIFICATE KEY N, quic post PROVIDER ROOTS SUITE PORT"
                .into(),
        ),
    }
}
