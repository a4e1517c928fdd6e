//! What a call is lent to expand.
use reference::signs::{Checked, Table};

#[derive(Clone)]
pub struct Script {
    pub text: Vec<u8>,
    /// The signs lent; none for a call of `gpm_expand`.
    signs: Option<Vec<u8>>,
    /// What the checks of the signs come to.
    checked: Checked,
    /// Whether it is asked where each byte came from, by calls of `gpm_expand_origins`. Signs are lent then.
    asks: bool,
}

impl Script {
    pub fn new(text: Vec<u8>, signs: Option<Vec<u8>>) -> Script {
        let checked = signs.as_deref().map_or(Ok(Table::STANDARD), Table::accepted);
        Script {
            text,
            signs,
            checked,
            asks: false,
        }
    }

    pub fn signs(&self) -> Option<&[u8]> {
        self.signs.as_deref()
    }

    pub fn checked(&self) -> &Checked {
        &self.checked
    }

    pub fn asks(&self) -> bool {
        self.asks
    }

    /// The script with signs lent, asking where each byte came from.
    pub fn asking(self) -> Script {
        Script { asks: true, ..self }
    }

    /// The script with another text.
    pub fn with_text(&self, text: Vec<u8>) -> Script {
        Script { text, ..self.clone() }
    }

    /// The script with other signs; with none it cannot ask.
    pub fn with_signs(&self, signs: Option<Vec<u8>>) -> Script {
        let asks = self.asks && signs.is_some();
        Script {
            asks,
            ..Script::new(self.text.clone(), signs)
        }
    }
}
