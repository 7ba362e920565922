//! A call and its arguments; memory and control are kept apart from it.

use std::fmt;

#[derive(Clone, Debug, PartialEq, Eq)]
pub enum Call {
    Setup { studios: u32, session_studios: Vec<u8> },
    Commit { session: u32, operations: Vec<u8> },
    Preview { session: u32, operations: Vec<u8> },
    Send { studio: u32 },
    Refresh { studio: u32 },
    Read { session: u32, request: Vec<u8>, output: usize },
    Collect { session: u32, output: usize },
    Forward { session: u32, request: Vec<u8>, output: usize },
    VanWrite { number: u32, output: usize },
    Move { session: u32, studio: u32 },
    Load,
    Retire,
}

impl Call {
    pub fn name(&self) -> &'static str {
        match self {
            Call::Setup { .. } => "setup",
            Call::Commit { .. } => "commit",
            Call::Preview { .. } => "preview",
            Call::Send { .. } => "send",
            Call::Refresh { .. } => "refresh",
            Call::Read { .. } => "read",
            Call::Collect { .. } => "collect",
            Call::Forward { .. } => "forward",
            Call::VanWrite { .. } => "van_write",
            Call::Move { .. } => "move",
            Call::Load => "load",
            Call::Retire => "retire",
        }
    }

    /// The rows of this call, from top to bottom.
    pub fn rows(&self) -> &'static [u32] {
        match self {
            Call::Setup { .. } => &[1, 15],
            Call::Commit { .. } | Call::Preview { .. } => &[1, 2, 3, 4, 5, 6, 16, 7, 8],
            Call::Send { .. } => &[1, 2, 3, 9, 10],
            Call::Refresh { .. } => &[1, 2, 3, 11],
            Call::Read { .. } | Call::Forward { .. } => &[1, 2, 3, 4, 12, 13],
            Call::Collect { .. } => &[1, 2, 3, 14, 13],
            Call::VanWrite { .. } => &[1, 2, 21, 17],
            Call::Move { .. } => &[1, 2, 3, 4],
            Call::Load => &[1, 2, 19],
            Call::Retire => &[1, 2, 20],
        }
    }

    /// The const input's bytes.
    pub fn input(&self) -> &[u8] {
        match self {
            Call::Setup { session_studios, .. } => session_studios,
            Call::Commit { operations, .. } | Call::Preview { operations, .. } => operations,
            Call::Read { request, .. } | Call::Forward { request, .. } => request,
            _ => &[],
        }
    }

    /// The commit that a preview is of.
    pub fn previewed(&self) -> Option<Call> {
        match self {
            Call::Preview { session, operations } => Some(Call::Commit { session: *session, operations: operations.clone() }),
            _ => None,
        }
    }

    /// The output's length.
    pub fn output(&self) -> usize {
        match self {
            Call::Read { output, .. } | Call::Collect { output, .. } | Call::Forward { output, .. } => *output,
            Call::VanWrite { output, .. } => *output,
            _ => 0,
        }
    }
}

impl fmt::Display for Call {
    fn fmt(&self, f: &mut fmt::Formatter<'_>) -> fmt::Result {
        match self {
            Call::Setup { studios, session_studios } => {
                write!(f, "setup S={studios} studio bytes={session_studios:?}")
            }
            Call::Commit { session, operations } | Call::Preview { session, operations } => {
                write!(f, "{} session={session} {} bytes:", self.name(), operations.len())?;
                operations.chunks(80).try_for_each(|unit| write!(f, "\n    {}", hex(unit)))
            }
            Call::Send { studio } => write!(f, "send studio={studio}"),
            Call::Refresh { studio } => write!(f, "refresh studio={studio}"),
            Call::Read { session, request, output } | Call::Forward { session, request, output } => {
                let (name, size, text) = (self.name(), request.len(), hex(request));
                write!(f, "{name} session={session} output={output} request of {size} bytes:\n    {text}")
            }
            Call::Collect { session, output } => {
                write!(f, "collect session={session} output={output}")
            }
            Call::VanWrite { number, output } => write!(f, "van_write number={number} output={output}"),
            Call::Move { session, studio } => write!(f, "move session={session} studio={studio}"),
            Call::Load => write!(f, "load"),
            Call::Retire => write!(f, "retire"),
        }
    }
}

pub fn hex(bytes: &[u8]) -> String {
    bytes.iter().map(|byte| format!("{byte:02x}")).collect()
}
