//! The numbers of the phases of sessions. Any other number is a phase that allows no call.

/// The phases of Peggy's session, and of her session of the OR proof.
pub mod prover {
    /// Nothing has happened.
    pub const NEW: u32 = 0;
    /// A nonce and its commitment are held.
    pub const COMMITTED: u32 = 1;
    /// A challenge was answered and the nonce is gone, but for saved copies.
    pub const ANSWERED: u32 = 2;
    /// The session was given up and the nonce is gone, but for saved copies.
    pub const DROPPED: u32 = 3;
}

/// The phases of Vic's session.
pub mod verifier {
    /// Nothing has been heard.
    pub const WAITING: u32 = 0;
    /// A commitment is held.
    pub const HOLDING: u32 = 1;
    /// A commitment and the challenge given on it are held.
    pub const ASKED: u32 = 2;
    /// A response was judged.
    pub const JUDGED: u32 = 3;
}
