//! What the examples share: providers, certificates and configurations.

use rustls::crypto::CryptoProvider;
use rustls::pki_types::pem::PemObject;
use rustls::pki_types::{CertificateDer, PrivateKeyDer};
use rustls::{ClientConfig, RootCertStore, ServerConfig};
use std::error::Error;
use std::result;
use std::sync::Arc;

pub type Result<T> = result::Result<T, Box<dyn Error + Send + Sync>>;

/// rustls' provider over ring, whose AES-GCM is ring's for `ring`, and deerlapse's for `deerlapse`.
pub fn provider(name: &str) -> Result<CryptoProvider> {
    let over_ring = rustls::crypto::ring::default_provider();
    match name {
        "ring" => Ok(over_ring),
        "deerlapse" => Ok(deerlapse_rustls::with_deerlapse(over_ring)),
        _ => Err(format!("{name} is neither ring nor deerlapse").into()),
    }
}

/// The configuration of a server with a certificate and its key, both in PEM files.
pub fn server(of: &str, certificate: &str, key: &str) -> Result<ServerConfig> {
    let chain: result::Result<_, _> = CertificateDer::pem_file_iter(certificate)?.collect();
    Ok(ServerConfig::builder_with_provider(Arc::new(provider(of)?))
        .with_safe_default_protocol_versions()?
        .with_no_client_auth()
        .with_single_cert(chain?, PrivateKeyDer::from_pem_file(key)?)?)
}

/// The configuration of a client that trusts the roots in a PEM file, and offers one suite, of TLS 1.3 or TLS 1.2.
pub fn client(of: &str, roots: &str, suite: &str) -> Result<ClientConfig> {
    let mut provider = provider(of)?;
    provider
        .cipher_suites
        .retain(|it| format!("{:?}", it.suite()) == suite);
    let mut trusted = RootCertStore::empty();
    for root in CertificateDer::pem_file_iter(roots)? {
        trusted.add(root?)?;
    }
    Ok(ClientConfig::builder_with_provider(Arc::new(provider))
        .with_safe_default_protocol_versions()?
        .with_root_certificates(trusted)
        .with_no_client_auth())
}
