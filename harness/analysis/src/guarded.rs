//! Arrays that are lent, and whether they came back as they should.

const UNSET: u32 = 0xdead_beef;

/// What is lent, with words around it that nobody may touch.
#[repr(C)]
pub struct Guarded<T> {
    front: [u32; 8],
    pub lent: T,
    back: [u32; 8],
}

impl<T: PartialEq, const N: usize> Guarded<[T; N]> {
    pub fn around(lent: [T; N]) -> Self {
        Guarded {
            front: [UNSET; 8],
            lent,
            back: [UNSET; 8],
        }
    }

    /// Whether it is what is expected, or where it differs.
    pub fn same(
        &self,
        what: &str,
        expected: &[T; N],
        show: fn(&T) -> String,
    ) -> Result<(), String> {
        if let Some(at) = (0..N).find(|at| self.lent[*at] != expected[*at]) {
            let (got, want) = (show(&self.lent[at]), show(&expected[at]));
            return Err(format!("{what}[{at}] is {got}, and should be {want}"));
        }
        match self.front == [UNSET; 8] && self.back == [UNSET; 8] {
            true => Ok(()),
            false => Err(format!("words beside {what} were touched")),
        }
    }
}
