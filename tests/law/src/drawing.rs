//! What a call is handed: corners and ring lengths. Refusal 2, and the rings one by one.

/// A figure as a call is handed it: the corners of all rings, one ring after the other, as x, y, x,
/// y, ..; and beside them how many corners each ring has. It need not be sound.
#[derive(Clone, PartialEq, Eq, Debug)]
pub struct Drawing {
    pub corners: Vec<u16>,
    pub rings: Vec<u16>,
}

impl Drawing {
    /// An outline of the scope: one ring. (Of an odd list the last number belongs to no corner.)
    pub fn outline(corners: &[u16]) -> Drawing {
        Drawing::of(&[corners])
    }

    /// The drawing of some rings, each a list x, y, x, y, .. of its corners.
    pub fn of<Ring: AsRef<[u16]>>(rings: &[Ring]) -> Drawing {
        Drawing {
            corners: rings.iter().flat_map(|ring| ring.as_ref()).copied().collect(),
            rings: rings.iter().map(|ring| (ring.as_ref().len() / 2) as u16).collect(),
        }
    }

    /// The corners of each ring; or 2: no ring or more than 8 of them, a ring of fewer than 4 corners
    /// or more than 32, more than 32 in all, or a list that is not two numbers for each corner.
    pub fn apart(&self) -> Result<Vec<&[u16]>, u32> {
        let lengths: Vec<u64> = self.rings.iter().map(|&length| length as u64).collect();
        let total: u64 = lengths.iter().sum();
        let sound = (1..=8).contains(&lengths.len())
            && lengths.iter().all(|length| (4..=32).contains(length))
            && total <= 32
            && self.corners.len() as u64 == 2 * total;
        if !sound {
            return Err(2);
        }
        let mut rest = &self.corners[..];
        let mut rings = Vec::new();
        for length in lengths {
            let (ring, behind) = rest.split_at(2 * length as usize);
            rings.push(ring);
            rest = behind;
        }
        Ok(rings)
    }
}
