// Written by tools/rust from crates/quic_packets/specs/Numbers.antt. Don't edit.
//! The encoding of packet numbers in 1 to 4 bytes (RFC 9000 section 17.1, appendices A.2 and A.3).
//!
//! The definitions of `crates/quic_packets/specs/Numbers.antt` of the repository.
//!
//! <div id="IsAbove"></div>
//!
//! ```text
//! -- the number is above the largest acknowledged one, if there is one
//! abbrev pub IsAbove : ℕ → Option ℕ → Type 0
//! IsAbove number None = Unit {0}
//! IsAbove number (Some largest) = largest < number
//! ```
//!
//! <div id="unacknowledged"></div>
//!
//! ```text
//! -- The number of packet numbers that may be unacknowledged once this one is sent: those above the largest acknowledged one, up
//! -- to this one (A.2).
//! abbrev pub unacknowledged : ℕ → Option ℕ → ℕ
//! unacknowledged number None = number + 1
//! unacknowledged number (Some largest) = number - largest
//! ```
//!
//! <div id="Represents"></div>
//!
//! ```text
//! -- In n bytes, more than twice as many numbers can be represented (section 17.1).
//! abbrev pub Represents : ℕ → ℕ → Type 0
//! Represents n numbers = 2 * numbers < 2 ^ (8 * n)
//! ```
//!
//! <div id="expected"></div>
//!
//! ```text
//! -- the expected number: one more than the largest that was received, or 0 (A.3)
//! abbrev pub expected : Option ℕ → ℕ
//! expected None = 0
//! expected (Some largest) = largest + 1
//! ```
//!
//! <div id="distance"></div>
//!
//! ```text
//! -- the distance between two numbers
//! abbrev pub distance : ℕ → ℕ → ℕ
//! distance a b = (a - b) + (b - a)
//! ```
//!
//! <div id="HasLowBits"></div>
//!
//! ```text
//! -- a packet number with these low 8 n bits
//! pub record HasLowBits (truncated n number : ℕ) : Type 0 where
//!   pub is_number : IsNumber number
//!   pub low_bits : number % 2 ^ (8 * n) ≡ truncated
//! ```
//!
//! Definitions: [`IsNumber`](crate::specs::packet#IsNumber).
//!
//! <div id="IsDecoded"></div>
//!
//! ```text
//! -- The number that was sent as its low 8 n bits, decoded: of the packet numbers with these bits, the nearest to the expected
//! -- one, and the higher of two that are equally near (section 17.1, A.3).
//! pub record IsDecoded (expected truncated n number : ℕ) : Type 0 where
//!   pub has : HasLowBits truncated n number
//!   pub nearest : (other : ℕ) → HasLowBits truncated n other → distance number expected ≤ distance other expected
//!   pub higher : (other : ℕ) → HasLowBits truncated n other → distance number expected ≡ distance other expected → other ≤ number
//! ```
//!
//! Definitions: [`HasLowBits`](crate::specs::numbers#HasLowBits), [`distance`](crate::specs::numbers#distance).
//!
//! <div id="InWindow"></div>
//!
//! ```text
//! -- the numbers that n bytes distinguish around the expected one: from half of 2 ^ (8 n) below it, exclusive, to half of it
//! -- above, inclusive (A.3)
//! pub record InWindow (expected n number : ℕ) : Type 0 where
//!   pub late : 2 * expected < 2 * number + 2 ^ (8 * n)
//!   pub early : 2 * number ≤ 2 * expected + 2 ^ (8 * n)
//! ```
