//! TLS to PostgreSQL, as its own clients are told of it: by `sslmode`, `sslrootcert`, `sslcert` and `sslkey` in the address.
//!
//! ```text
//! ?sslmode=verify-full&sslrootcert=/etc/ripsawbean/ca.pem    the certificate is of this authority, and names the host
//! ?sslmode=require                                           what is sent is hidden, and nobody knows from whom
//! ```
//!
//! Without `sslmode` it isn't spoken. 1. The certificate is looked at before anything else is sent, the password too.

use super::Failure;
use crate::http::Stream;
use crate::query::percent_decoded;
use crate::tls::{chain, key};
use std::collections::BTreeMap;
use std::io;
use std::path::Path;
use std::sync::Arc;
use std::time::SystemTime;
use tokio::io::{AsyncReadExt, AsyncWriteExt};
use tokio_rustls::rustls::client::{ServerCertVerified, ServerCertVerifier};
use tokio_rustls::rustls::{self, Certificate, ClientConfig, ServerName};
use tokio_rustls::TlsConnector;

const NAMES: [&str; 4] = ["sslmode", "sslrootcert", "sslcert", "sslkey"];
/// Asks PostgreSQL to speak TLS.
const REQUEST: [u8; 8] = [0, 0, 0, 8, 4, 210, 22, 47];

pub struct Tls {
    connector: TlsConnector,
    /// Whether nothing is sent without it.
    is_needed: bool,
}

impl Tls {
    /// As the words `NAME=VALUE` of an address say.
    pub fn of(words: &[&str]) -> Result<Option<Tls>, Failure> {
        let (refused, mut said) = (|why: String| Err(Failure::Refused(why)), BTreeMap::new());
        for word in words {
            let (name, value) = word.split_once('=').unwrap_or((word, ""));
            let value = percent_decoded(value.as_bytes()).ok().and_then(|bytes| String::from_utf8(bytes).ok());
            match value.filter(|_| NAMES.contains(&name)) {
                Some(value) => drop(said.insert(name, value)),
                None => return refused(format!("{word} isn't known: {} are", NAMES.join(", "))),
            }
        }
        let (mode, file) = (said.get("sslmode").map_or("disable", |mode| mode), |name| said.get(name).map(Path::new));
        let (is_needed, root) = match (mode, file("sslrootcert")) {
            ("disable", _) if said.keys().all(|name| *name == "sslmode") => return Ok(None),
            ("prefer", _) => (false, None),
            ("require", root) | ("verify-ca" | "verify-full", root @ Some(_)) => (true, root),
            _ => return refused("sslmode is prefer or require, or with sslrootcert verify-ca or verify-full".into()),
        };
        let unfit = |fault: crate::tls::Fault| Failure::Refused(fault.to_string());
        let roots = root.map(chain).transpose().map_err(unfit)?;
        let verifier = Arc::new(Verifier { roots, is_named: mode == "verify-full" });
        let config = ClientConfig::builder().with_safe_defaults().with_custom_certificate_verifier(verifier);
        let config = match (file("sslcert"), file("sslkey")) {
            (None, None) => config.with_no_client_auth(),
            (Some(one), Some(other)) => config
                .with_single_cert(chain(one).map_err(unfit)?, key(other).map_err(unfit)?)
                .map_err(|error| Failure::Refused(format!("{}: {error}", other.display())))?,
            _ => return refused("sslcert and sslkey belong together".into()),
        };
        Ok(Some(Tls { connector: Arc::new(config).into(), is_needed }))
    }

    /// The connection once both sides agree.
    pub async fn agree(&self, mut stream: Box<dyn Stream>, host: &str) -> io::Result<Box<dyn Stream>> {
        stream.write_all(&REQUEST).await?;
        match stream.read_u8().await? {
            b'S' => {
                let name = ServerName::try_from(host).map_err(io::Error::other)?;
                Ok(Box::new(self.connector.connect(name, stream).await?))
            }
            _ if self.is_needed => Err(io::Error::other("it speaks no TLS")),
            _ => Ok(stream),
        }
    }
}

struct Verifier {
    /// None where anyone is believed.
    roots: Option<Vec<Certificate>>,
    /// Whether the certificate has to name the host.
    is_named: bool,
}

impl ServerCertVerifier for Verifier {
    fn verify_server_cert(
        &self,
        certificate: &Certificate,
        above: &[Certificate],
        host: &ServerName,
        _: &mut dyn Iterator<Item = &[u8]>,
        _: &[u8],
        now: SystemTime,
    ) -> Result<ServerCertVerified, rustls::Error> {
        let Some(roots) = &self.roots else { return Ok(ServerCertVerified::assertion()) };
        let refused = |error: webpki::Error| rustls::Error::InvalidCertificateData(error.to_string());
        let certificate = webpki::EndEntityCert::try_from(certificate.0.as_slice()).map_err(refused)?;
        let anchors: Result<Vec<_>, _> =
            roots.iter().map(|root| webpki::TrustAnchor::try_from_cert_der(&root.0)).collect();
        let above: Vec<&[u8]> = above.iter().map(|one| one.0.as_slice()).collect();
        let now = webpki::Time::try_from(now).map_err(|_| rustls::Error::FailedToGetCurrentTime)?;
        let anchors = anchors.map_err(refused)?;
        let anchors = webpki::TlsServerTrustAnchors(&anchors);
        certificate.verify_is_valid_tls_server_cert(SIGNATURES, &anchors, &above, now).map_err(refused)?;
        match host {
            _ if !self.is_named => {}
            ServerName::DnsName(name) => {
                let name = webpki::DnsNameRef::try_from_ascii_str(name.as_ref())
                    .map_err(|_| rustls::Error::UnsupportedNameType)?;
                certificate.verify_is_valid_for_dns_name(name).map_err(refused)?;
            }
            _ => return Err(rustls::Error::General("verify-full needs the host's name, not its address".into())),
        }
        Ok(ServerCertVerified::assertion())
    }
}

/// By which an authority may have signed.
const SIGNATURES: &[&webpki::SignatureAlgorithm] = &[
    &webpki::ECDSA_P256_SHA256,
    &webpki::ECDSA_P256_SHA384,
    &webpki::ECDSA_P384_SHA256,
    &webpki::ECDSA_P384_SHA384,
    &webpki::ED25519,
    &webpki::RSA_PKCS1_2048_8192_SHA256,
    &webpki::RSA_PKCS1_2048_8192_SHA384,
    &webpki::RSA_PKCS1_2048_8192_SHA512,
];

#[cfg(test)]
mod tests {
    use super::*;

    #[test]
    fn what_an_address_says_of_tls_is_whole_or_refused() {
        for (words, why) in [
            (&["sslmode=allow"][..], "is prefer or require"),
            (&["sslmode=verify-full"], "with sslrootcert"),
            (&["sslrootcert=/ca"], "is prefer or require"),
            (&["sslmode=require", "sslcert=/a"], "belong together"),
            (&["sslmode=verify-ca", "sslrootcert=/not%20there"], "/not there can't be read"),
            (&["sslmode=require", "sslcrl=/a"], "sslcrl=/a isn't known"),
            (&["sslmode=%zz"], "isn't known"),
        ] {
            let said = Tls::of(words).err().expect("it is refused").to_string();
            assert!(said.contains(why), "{words:?}: {said}");
        }
        assert!(
            Tls::of(&[]).expect("it is right").is_none()
                && Tls::of(&["sslmode=disable"]).expect("it is right").is_none()
        );
        for (mode, is_needed) in [("prefer", false), ("require", true)] {
            let tls = Tls::of(&[&format!("sslmode={mode}")]).expect("it is right").expect("it is spoken");
            assert_eq!(tls.is_needed, is_needed, "{mode}");
        }
    }
}
