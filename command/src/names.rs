//! The arrays' names: those of a text, else A0, A1, ..
#[derive(Clone, Debug, Default)]
pub struct Names(pub Vec<String>);
impl Names {
    pub fn of(&self, array: usize) -> String {
        self.0.get(array).cloned().unwrap_or_else(|| format!("A{array}"))
    }
}
