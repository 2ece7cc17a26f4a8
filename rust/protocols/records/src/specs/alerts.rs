// Written by tools/rust from crates/records/specs/Alerts.antt. Don't edit.
//! Alerts (RFC 8446 section 6).
//!
//! The definitions of `crates/records/specs/Alerts.antt` of the repository.
//!
//! <div id="close_notify"></div>
//!
//! ```text
//! -- the record of close_notify, at the level of a warning (section 6.1)
//! abbrev pub close_notify : Inner
//! close_notify = record { content_type = Alert; content = 1 ∷ 0 ∷ []; padding = 0 }
//! ```
//!
//! Definitions: [`Inner`](crate::specs::record#Inner).
//!
//! <div id="fatal_content"></div>
//!
//! ```text
//! -- a fatal alert (section 6.2), and its record
//! abbrev pub fatal_content : AlertDescription → List ℕ
//! fatal_content description = 2 ∷ alert_code description ∷ []
//! ```
//!
//! Definitions: [`alert_code`](tls_messages::specs::steps#alert_code).
//!
//! <div id="fatal_record"></div>
//!
//! ```text
//! abbrev pub fatal_record : AlertDescription → Inner
//! fatal_record description = record { content_type = Alert; content = fatal_content description; padding = 0 }
//! ```
//!
//! Definitions: [`Inner`](crate::specs::record#Inner), [`fatal_content`](crate::specs::alerts#fatal_content).
//!
//! <div id="plaintext_alert_record"></div>
//!
//! ```text
//! -- the record of an alert in plaintext, of version 0x0303 (section 5.1)
//! abbrev pub plaintext_alert_record : List ℕ → List ℕ
//! plaintext_alert_record alert = 21 ∷ 3 ∷ 3 ∷ 0 ∷ 2 ∷ alert
//! ```
