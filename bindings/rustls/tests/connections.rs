//! Whole connections in memory by each AES-GCM suite of TLS 1.3: data and key updates in both directions, and early data, which
//! a server accepts or passes over.

use deerlapse_rustls::with_deerlapse;
use rustls::client::danger::{HandshakeSignatureValid, ServerCertVerified, ServerCertVerifier};
use rustls::crypto::ring::{default_provider, sign::any_eddsa_type};
use rustls::crypto::CryptoProvider;
use rustls::pki_types::{CertificateDer, PrivatePkcs8KeyDer, ServerName, UnixTime};
use rustls::sign::{CertifiedKey, SingleCertAndKey};
use rustls::version::TLS13;
use rustls::{
    CipherSuite, ClientConfig, ClientConnection, ConnectionCommon, DigitallySignedStruct,
    ServerConfig, ServerConnection, SideData, SignatureScheme,
};
use std::error::Error;
use std::io::{Read, Write};
use std::sync::Arc;

const SUITES: [CipherSuite; 2] = [
    CipherSuite::TLS13_AES_128_GCM_SHA256,
    CipherSuite::TLS13_AES_256_GCM_SHA384,
];

/// Accepts any certificate.
#[derive(Debug)]
struct Trusting;

impl ServerCertVerifier for Trusting {
    fn verify_server_cert(
        &self,
        _: &CertificateDer<'_>,
        _: &[CertificateDer<'_>],
        _: &ServerName<'_>,
        _: &[u8],
        _: UnixTime,
    ) -> Result<ServerCertVerified, rustls::Error> {
        Ok(ServerCertVerified::assertion())
    }

    fn verify_tls12_signature(
        &self,
        _: &[u8],
        _: &CertificateDer<'_>,
        _: &DigitallySignedStruct,
    ) -> Result<HandshakeSignatureValid, rustls::Error> {
        Ok(HandshakeSignatureValid::assertion())
    }

    fn verify_tls13_signature(
        &self,
        _: &[u8],
        _: &CertificateDer<'_>,
        _: &DigitallySignedStruct,
    ) -> Result<HandshakeSignatureValid, rustls::Error> {
        Ok(HandshakeSignatureValid::assertion())
    }

    fn supported_verify_schemes(&self) -> Vec<SignatureScheme> {
        vec![SignatureScheme::ED25519]
    }
}

fn client_config(mut provider: CryptoProvider, suite: CipherSuite) -> Arc<ClientConfig> {
    provider.cipher_suites.retain(|it| it.suite() == suite);
    let mut config = ClientConfig::builder_with_provider(provider.into())
        .with_protocol_versions(&[&TLS13])
        .expect("the suite is of TLS 1.3")
        .dangerous()
        .with_custom_certificate_verifier(Arc::new(Trusting))
        .with_no_client_auth();
    config.enable_early_data = true;
    config.into()
}

/// A server with a key of Ed25519 (RFC 8410 section 7), and a certificate that nobody reads.
fn server_config(provider: CryptoProvider) -> Arc<ServerConfig> {
    let header = *b"\x30\x2e\x02\x01\x00\x30\x05\x06\x03\x2b\x65\x70\x04\x22\x04\x20";
    let key = PrivatePkcs8KeyDer::from([header.as_slice(), &[7; 32]].concat());
    let key = any_eddsa_type(&key).expect("a key of Ed25519");
    let certified = CertifiedKey::new(vec![b"a certificate".to_vec().into()], key);
    let mut config = ServerConfig::builder_with_provider(provider.into())
        .with_protocol_versions(&[&TLS13])
        .expect("suites of TLS 1.3")
        .with_no_client_auth()
        .with_cert_resolver(Arc::new(SingleCertAndKey::from(certified)));
    config.max_early_data_size = 1 << 14;
    config.into()
}

/// Passes on what one end has to send, and returns the data that the other end then has.
fn pass<A: SideData, B: SideData>(
    from: &mut ConnectionCommon<A>,
    to: &mut ConnectionCommon<B>,
) -> Result<Vec<u8>, Box<dyn Error>> {
    let (mut records, mut data) = (Vec::new(), Vec::new());
    while from.wants_write() {
        from.write_tls(&mut records)?;
    }
    let mut records = records.as_slice();
    while !records.is_empty() {
        to.read_tls(&mut records)?;
        let len = to.process_new_packets()?.plaintext_bytes_to_read();
        let read = data.len();
        data.resize(read + len, 0);
        to.reader().read_exact(&mut data[read..])?;
    }
    Ok(data)
}

/// The two ends of a connection.
struct Ends {
    client: ClientConnection,
    server: ServerConnection,
}

impl Ends {
    fn new(client: &Arc<ClientConfig>, server: &Arc<ServerConfig>) -> Result<Self, Box<dyn Error>> {
        Ok(Ends {
            client: ClientConnection::new(client.clone(), "localhost".try_into()?)?,
            server: ServerConnection::new(server.clone())?,
        })
    }

    /// Passes on what the ends have to send until the handshake is done, and the tickets after it.
    fn shake_hands(&mut self) -> Result<(), Box<dyn Error>> {
        while self.client.wants_write() || self.server.wants_write() {
            pass(&mut self.client, &mut self.server)?;
            pass(&mut self.server, &mut self.client)?;
        }
        assert!(!self.client.is_handshaking() && !self.server.is_handshaking());
        Ok(())
    }

    /// Sends data in both directions under new keys each time, in more than one record if it is long.
    fn talk(&mut self) -> Result<(), Box<dyn Error>> {
        let Ends { client, server } = self;
        for len in [0, 1, 100, 1 << 14, 40_000] {
            let data: Vec<u8> = (0..=u8::MAX).cycle().take(len).collect();
            client.writer().write_all(&data)?;
            assert_eq!(pass(client, server)?, data);
            server.writer().write_all(&data)?;
            assert_eq!(pass(server, client)?, data);
            client.refresh_traffic_keys()?;
            server.refresh_traffic_keys()?;
        }
        Ok(())
    }
}

#[test]
fn data_and_key_updates() -> Result<(), Box<dyn Error>> {
    let (ring, ours) = (default_provider(), with_deerlapse(default_provider()));
    for suite in SUITES {
        for (of_client, of_server) in [(&ours, &ours), (&ours, &ring), (&ring, &ours)] {
            let client = client_config(of_client.clone(), suite);
            let mut ends = Ends::new(&client, &server_config(of_server.clone()))?;
            ends.shake_hands()?;
            ends.talk()?;
        }
    }
    Ok(())
}

// RFC 8446 section 4.2.10: a server that has no session of the client's passes over early data, which it can't open.
#[test]
fn early_data() -> Result<(), Box<dyn Error>> {
    let ours = with_deerlapse(default_provider());
    for suite in SUITES {
        let client = client_config(ours.clone(), suite);
        let (first, another) = (server_config(ours.clone()), server_config(ours.clone()));
        for (server, accepts) in [
            (&first, None),
            (&first, Some(true)),
            (&another, Some(false)),
        ] {
            let mut ends = Ends::new(&client, server)?;
            let early = ends.client.early_data();
            assert_eq!(early.is_some(), accepts.is_some());
            if let Some(mut early) = early {
                early.write_all(&[9; 900])?;
            }
            pass(&mut ends.client, &mut ends.server)?;
            let mut received = Vec::new();
            if let Some(mut early) = ends.server.early_data() {
                early.read_to_end(&mut received)?;
            }
            ends.shake_hands()?;
            assert_eq!(ends.client.is_early_data_accepted(), accepts == Some(true));
            assert_eq!(received.len(), if accepts == Some(true) { 900 } else { 0 });
            ends.talk()?;
        }
    }
    Ok(())
}
