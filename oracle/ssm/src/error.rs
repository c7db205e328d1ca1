//! The error type of the carried files: the variants they use.

use tsecon_linalg::LinalgError;

#[derive(Debug, Clone, PartialEq, Eq)]
pub enum SsmError {
    MissingMatrix {
        what: &'static str,
    },
    Dimension {
        what: &'static str,
        expected: usize,
        got: usize,
    },
    InvalidArgument {
        what: &'static str,
    },
    NonFinite {
        what: &'static str,
    },
    NotPsd {
        what: &'static str,
    },
    NonDiagonalH,
    NoInformation,
    Linalg(LinalgError),
}

impl From<LinalgError> for SsmError {
    fn from(e: LinalgError) -> Self {
        SsmError::Linalg(e)
    }
}
