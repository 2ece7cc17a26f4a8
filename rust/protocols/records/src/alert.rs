// Written by tools/rust from crates/records/src/alert.rt. Don't edit.
//! Alerts that an endpoint sends (RFC 8446 section 6).

use crate::content_type::ContentType;
use crate::record_error::RecordError;
use crate::writer::Writer;
use tls_messages::AlertDescription;

/// The length of an alert in bytes: its level and its description.
pub(crate) const ALERT_LEN: usize = 2;

/// The content of close_notify, after which an endpoint sends nothing more (RFC 8446 section 6.1).
pub const CLOSE_NOTIFY: [u8; ALERT_LEN] = [1, 0];

/// Returns the content of a fatal alert, after which an endpoint sends nothing more (RFC 8446 section 6.2).
///
/// <details><summary>Contract</summary>
///
/// ```text
/// ensures { result ≡ fatal_content description }
/// ```
///
/// Definitions: [`fatal_content`](crate::specs::alerts#fatal_content).
///
/// </details>
pub fn fatal_alert(description: AlertDescription) -> [u8; ALERT_LEN] {
    [2, description as u8]
}

/// Returns the plaintext record of an alert, for an endpoint that has no keys yet (RFC 8446 section 5.1).
///
/// <details><summary>Contract</summary>
///
/// ```text
/// ensures { result ≡ plaintext_alert_record alert }
/// ```
///
/// Definitions: [`plaintext_alert_record`](crate::specs::alerts#plaintext_alert_record).
///
/// </details>
pub fn plaintext_alert(alert: [u8; ALERT_LEN]) -> [u8; 7] {
    let [level, description] = alert;
    [21, 3, 3, 0, 2, level, description]
}

impl Writer {
    /// Appends the record of close_notify, after which this side sends nothing more (RFC 8446 section 6.1).
    ///
    /// # Errors
    ///
    /// Fails as `write` does, and then appends nothing and uses no number.
    ///
    /// <details><summary>Contract</summary>
    ///
    /// ```text
    /// ensures outcome { AppendOutcome ((self.old.number < self.old.limit)
    ///     × IsAllowed self.old.key.size_limit ContentType.Alert 2 0)
    ///     (RefusesToWriteNext self.old ContentType.Alert 2 0) (record_at self.old.key self.old.number close_notify)
    ///     out.old out.new result self.old self.new (record self.old { number = self.old.number + 1 }) }
    /// ```
    ///
    /// Definitions: [`AppendOutcome`](crate::specs::appending#AppendOutcome),
    /// [`IsAllowed`](crate::specs::record#IsAllowed),
    /// [`RefusesToWriteNext`](crate::specs::refusals#RefusesToWriteNext),
    /// [`record_at`](crate::specs::record#record_at), [`close_notify`](crate::specs::alerts#close_notify).
    ///
    /// </details>
    pub fn close_notify(&mut self, out: &mut Vec<u8>) -> Result<(), RecordError> {
        self.write(ContentType::Alert, &CLOSE_NOTIFY, 0, out)
    }
}
