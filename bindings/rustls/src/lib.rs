#![doc = include_str!("../README.md")]
#![warn(missing_docs)]
#![forbid(unsafe_code)]

mod gcm;
mod hkdf;
mod quic;
#[cfg(feature = "tls12")]
mod tls12;
mod tls13;

use gcm::Gcm;
use rustls::crypto::CryptoProvider;
use rustls::{CipherSuite, CipherSuiteCommon, SupportedCipherSuite, Tls13CipherSuite};

/// Returns the provider with AES-GCM by `deerlapse` in each of its AES-GCM suites of TLS 1.3 (RFC 8446 appendix B.4) and
/// TLS 1.2 (RFC 5289 section 3.2), and in those of TLS 1.3 with HKDF and HMAC, and with packet and header keys for QUIC (RFC
/// 9001 section 5), by `deerlapse` too.
///
/// All else stays the provider's: key exchange, signatures, hashes of messages, the PRF of TLS 1.2, random numbers, the other
/// suites, and how many records a key may seal. Packets have the limits of RFC 9001 section 6.6. No suite with AES-GCM by
/// `deerlapse` is FIPS-approved.
///
/// A call allocates up to six suites that are never freed, because rustls wants references to them that are valid forever.
///
/// ```
/// use deerlapse_rustls::with_deerlapse;
/// use rustls::crypto::ring::default_provider;
///
/// let provider = with_deerlapse(default_provider());
/// assert_eq!(provider.cipher_suites, default_provider().cipher_suites);
/// provider.install_default().expect("the first provider of this process");
/// ```
#[must_use]
pub fn with_deerlapse(provider: CryptoProvider) -> CryptoProvider {
    let replaced = |suite: &SupportedCipherSuite| match gcm_of(suite.suite()) {
        Some(gcm) => with_gcm(*suite, gcm),
        None => *suite,
    };
    let cipher_suites = provider.cipher_suites.iter().map(replaced).collect();
    CryptoProvider {
        cipher_suites,
        ..provider
    }
}

/// The AES-GCM of a suite.
fn gcm_of(suite: CipherSuite) -> Option<&'static Gcm> {
    match suite {
        CipherSuite::TLS13_AES_128_GCM_SHA256
        | CipherSuite::TLS_ECDHE_ECDSA_WITH_AES_128_GCM_SHA256
        | CipherSuite::TLS_ECDHE_RSA_WITH_AES_128_GCM_SHA256 => Some(&Gcm::Aes128),
        CipherSuite::TLS13_AES_256_GCM_SHA384
        | CipherSuite::TLS_ECDHE_ECDSA_WITH_AES_256_GCM_SHA384
        | CipherSuite::TLS_ECDHE_RSA_WITH_AES_256_GCM_SHA384 => Some(&Gcm::Aes256),
        _ => None,
    }
}

/// The suite with another AES-GCM.
fn with_gcm(suite: SupportedCipherSuite, gcm: &'static Gcm) -> SupportedCipherSuite {
    match suite {
        SupportedCipherSuite::Tls13(suite) => {
            SupportedCipherSuite::Tls13(Box::leak(Box::new(Tls13CipherSuite {
                common: common(&suite.common),
                hkdf_provider: gcm,
                aead_alg: gcm,
                quic: Some(gcm),
            })))
        }
        #[cfg(feature = "tls12")]
        SupportedCipherSuite::Tls12(suite) => {
            SupportedCipherSuite::Tls12(Box::leak(Box::new(rustls::Tls12CipherSuite {
                common: common(&suite.common),
                prf_provider: suite.prf_provider,
                kx: suite.kx,
                sign: suite.sign,
                aead_alg: gcm,
            })))
        }
    }
}

fn common(of: &CipherSuiteCommon) -> CipherSuiteCommon {
    CipherSuiteCommon {
        suite: of.suite,
        hash_provider: of.hash_provider,
        confidentiality_limit: of.confidentiality_limit,
    }
}
