//! Makes AES-GCM by `deerlapse` that of every TLS connection of the process, and prints the cipher suites of a client.

use deerlapse_rustls::with_deerlapse;
use rustls::crypto::ring::default_provider;
use rustls::{ClientConfig, RootCertStore};

fn main() {
    let provider = with_deerlapse(default_provider());
    provider.install_default().expect("no provider yet");

    let config = ClientConfig::builder() // by the installed provider
        .with_root_certificates(RootCertStore::empty())
        .with_no_client_auth();
    for suite in &config.crypto_provider().cipher_suites {
        println!("{:?}", suite.suite());
    }
}
