//! What a tag holds from one message to the next.

/// The states of Annex A, each with what it holds. Initial and IA-OK hold nothing (clause 8).
#[derive(Clone, Copy)]
pub enum Session {
    Initial,
    /// KeyID and TChallenge.
    IamInit(u8, [u8; 10]),
    /// KeyID, TChallenge and IChallenge[31:0].
    MamInit(u8, [u8; 10], [u8; 4]),
    IaOk,
}

impl Session {
    pub fn name(&self) -> &'static str {
        match self {
            Session::Initial => "Initial",
            Session::IamInit(..) => "IAM-Init",
            Session::MamInit(..) => "MAM-Init",
            Session::IaOk => "IA-OK",
        }
    }
}
