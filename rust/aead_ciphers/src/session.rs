// Written by tools/rust from crates/aead_ciphers/src/session.rt. Don't edit.
//! Lists of jobs that are run, in order, with a sealing and an opening key.
//!
//! A job seals or opens one message. [`run`] does what a loop over the calls of the keys does, and its contract is
//! about the whole list: for example, that the sealing key uses no nonce twice.

use crate::aead::generic::{OpeningKey, SealingKey};
use crate::aead::{Aad, NonceSequence};
use crate::aes_gcm::GcmKey;

use alloc::vec::Vec;

/// What a job does.
#[derive(Clone, Copy, PartialEq, Eq, Debug)]
pub enum Operation {
    /// Encrypt the buffer and append the tag.
    Seal,
    /// Open the buffer from this byte on. Its last 16 bytes are the tag.
    Open(usize),
}

/// The outcome of a job.
#[derive(Clone, Copy, PartialEq, Eq, Debug)]
pub enum Outcome {
    /// The buffer holds the ciphertext followed by the tag.
    Sealed,
    /// The buffer begins with the plaintext, which has this length in bytes.
    Opened(usize),
    /// The call failed, or the job has not been run. The buffer is unchanged.
    Refused,
}

/// One call with a key, and its outcome.
///
/// # Examples
///
/// A job that opens a packet after its header of 4 bytes, which is the AAD:
///
/// ```
/// use deerlapse::session::{Job, Operation, Outcome};
///
/// let packet = vec![7; 4 + 5 + 16]; // the header, the ciphertext and the tag
/// let job = Job::new(Operation::Open(4), packet[..4].to_vec(), packet);
/// assert_eq!(job.outcome, Outcome::Refused); // it hasn't been run yet
/// ```
pub struct Job {
    /// What the job does.
    pub operation: Operation,
    /// The additional authenticated data.
    pub aad: Vec<u8>,
    /// The buffer that is sealed or opened in place.
    pub buffer: Vec<u8>,
    /// The outcome, once the job has been run.
    pub outcome: Outcome,
}

impl Job {
    /// Creates a job that has not been run yet. Its outcome is `Refused`.
    ///
    /// <details><summary>Contract</summary>
    ///
    /// ```text
    /// ensures { result ≡ record {
    ///   operation = operation;
    ///   aad = aad;
    ///   buffer = buffer;
    ///   outcome = Outcome.Refused;
    /// } }
    /// ```
    ///
    /// </details>
    pub fn new(operation: Operation, aad: Vec<u8>, buffer: Vec<u8>) -> Self {
        Job {
            operation,
            aad,
            buffer,
            outcome: Outcome::Refused,
        }
    }

    // ensures performed { JobStep S.spent S.is_closed S.origin O.spent O.is_closed O.origin
    //     (sealing.old, opening.old) (sealing.new, opening.new) self.old self.new }
    // ensures capacity_kept { self.old.operation ≢ Operation.Seal
    //     → vec_capacity self.new.buffer ≡ vec_capacity self.old.buffer }
    fn perform<K: GcmKey, L: GcmKey, S: NonceSequence, O: NonceSequence>(
        &mut self,
        sealing: &mut SealingKey<K, S>,
        opening: &mut OpeningKey<L, O>,
    ) {
        let aad = Aad::from(self.aad.as_slice());
        self.outcome = match self.operation {
            Operation::Seal => match sealing.seal_in_place_append_tag(aad, &mut self.buffer) {
                Ok(()) => Outcome::Sealed,
                Err(_) => Outcome::Refused,
            },
            Operation::Open(start) => {
                match opening.open_within_to_front(aad, self.buffer.as_mut_slice(), start..) {
                    Ok(count) => Outcome::Opened(count),
                    Err(_) => Outcome::Refused,
                }
            }
        };
    }
}

/// Runs the jobs in order: `Seal` jobs with the sealing key, `Open` jobs with the opening key. The outcome of each job
/// is overwritten. A sealing job may allocate memory for its tag.
///
/// # Examples
///
/// The sealing key has two nonces, so it refuses the third message:
///
/// ```
/// use deerlapse::aead::{
///     AES_128_GCM, BoundKey, CounterSequence, OpeningKey, SealingKey, UnboundKey, Unspecified,
/// };
/// use deerlapse::session::{Job, Operation, Outcome, run};
///
/// let key = || UnboundKey::new(&AES_128_GCM, &[7; 16]); // not a real key
/// let sequence = || CounterSequence::new([1, 2, 3, 4], 0, 2);
/// let mut sealing = SealingKey::new(key()?, sequence()?);
/// let mut opening = OpeningKey::new(key()?, sequence()?);
///
/// let job = || Job::new(Operation::Seal, Vec::new(), b"hello".to_vec());
/// let mut jobs = [job(), job(), job()];
/// run(&mut sealing, &mut opening, &mut jobs);
/// let outcomes = jobs.each_ref().map(|job| job.outcome);
/// assert_eq!(outcomes, [Outcome::Sealed, Outcome::Sealed, Outcome::Refused]);
///
/// jobs[0].operation = Operation::Open(0);
/// run(&mut sealing, &mut opening, &mut jobs[..1]);
/// assert_eq!(jobs[0].outcome, Outcome::Opened(5));
/// assert!(jobs[0].buffer.starts_with(b"hello"));
/// # Ok::<(), Unspecified>(())
/// ```
///
/// <details><summary>Contract</summary>
///
/// ```text
/// ensures ran { Runs (JobStep S.spent S.is_closed S.origin O.spent O.is_closed O.origin)
///     (sealing.old, opening.old) (sealing.new, opening.new) jobs.old jobs.new }
/// ensures capacity_kept { AllZip (λ old new. old.operation ≢ Operation.Seal
///     → vec_capacity new.buffer ≡ vec_capacity old.buffer) jobs.old jobs.new }
/// ensures no_nonce_twice { GrewFresh (S.spent sealing.old.sequence) (S.spent sealing.new.sequence) }
/// ```
///
/// Definitions: [`Runs`](crate::specs::runs#Runs), [`JobStep`](crate::specs::runs#JobStep),
/// [`GrewFresh`](crate::specs::fresh_nonces#GrewFresh).
///
/// </details>
pub fn run<K: GcmKey, L: GcmKey, S: NonceSequence, O: NonceSequence>(
    sealing: &mut SealingKey<K, S>,
    opening: &mut OpeningKey<L, O>,
    jobs: &mut [Job],
) {
    for job in jobs.iter_mut() {
        job.perform(sealing, opening);
    }
}
