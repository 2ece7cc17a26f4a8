//! Records of TLS 1.3 and the connections of `deerlapse-tls`: vectors of RFC 8448, records of OpenSSL and of Python's
//! `cryptography`, a plain model, and the refusals.

mod tls {
    pub(crate) mod captured;
    mod connections;
    mod early_data;
    mod model;
    mod printed;
    mod received;
    mod refusals;
    mod standards;
    mod streams;
}

/// Where the records of OpenSSL find their types.
mod tests {
    pub(crate) mod connection {
        pub(crate) use crate::tls::captured::{Carried, Direction, Epoch};
    }
}
