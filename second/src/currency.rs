//! The two currencies, each with entity fields of its own.

#[derive(Clone, Copy, Debug, PartialEq, Eq)]
pub enum Currency {
    Pesos,
    Dollars,
}

impl Currency {
    /// What entity fields of this currency add to the entity's number.
    pub fn added(self) -> u64 {
        match self {
            Currency::Pesos => 0,
            Currency::Dollars => 500,
        }
    }
}
