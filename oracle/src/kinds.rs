//! The label kinds of `docs/labels.md`.

/// A label kind: a set of labels 0 to n - 1 with an order and a join.
#[derive(Clone, Debug, PartialEq, Eq)]
pub enum Kind {
    Stage,
    Mastheads,
    /// Made by `Kind::pair` only, which keeps the two counts beside the parts so that no question counts again.
    Pair(Box<Pair>),
}

#[derive(Clone, Debug, PartialEq, Eq)]
pub struct Pair {
    first: Kind,
    second: Kind,
    second_count: u16,
    count: u16,
    too_large: bool,
}

impl Kind {
    pub fn pair(first: Kind, second: Kind) -> Kind {
        let product = u32::from(first.count()) * u32::from(second.count());
        let too_large = product > 256;
        Kind::Pair(Box::new(Pair {
            second_count: second.count(),
            // A pair whose codes would not fit a byte has the one label 0.
            count: if too_large { 1 } else { product as u16 },
            too_large,
            first,
            second,
        }))
    }

    /// How many labels there are, 1 to 256.
    pub fn count(&self) -> u16 {
        match self {
            Kind::Stage | Kind::Mastheads => 16,
            Kind::Pair(pair) => pair.count,
        }
    }

    pub fn is_label(&self, code: u8) -> bool {
        u16::from(code) < self.count()
    }

    /// Is `a` at or below `b`? No, if either is no label.
    pub fn at_or_below(&self, a: u8, b: u8) -> bool {
        if !self.is_label(a) || !self.is_label(b) {
            return false;
        }
        match self {
            Kind::Stage => a <= b,
            Kind::Mastheads => a & !b == 0,
            Kind::Pair(pair) if pair.too_large => true,
            Kind::Pair(pair) => {
                let (a1, a2) = pair.parts(a);
                let (b1, b2) = pair.parts(b);
                pair.first.at_or_below(a1, b1) && pair.second.at_or_below(a2, b2)
            }
        }
    }

    /// The lowest label at or above both. 0, if either is no label.
    pub fn join(&self, a: u8, b: u8) -> u8 {
        if !self.is_label(a) || !self.is_label(b) {
            return 0;
        }
        match self {
            Kind::Stage => a.max(b),
            Kind::Mastheads => a | b,
            Kind::Pair(pair) if pair.too_large => 0,
            Kind::Pair(pair) => {
                let (a1, a2) = pair.parts(a);
                let (b1, b2) = pair.parts(b);
                pair.code(pair.first.join(a1, b1), pair.second.join(a2, b2))
            }
        }
    }
}

impl Pair {
    /// The parts of a code that is a label of a pair that is not too large; both then fit a byte.
    fn parts(&self, code: u8) -> (u8, u8) {
        let code = u16::from(code);
        ((code / self.second_count) as u8, (code % self.second_count) as u8)
    }

    fn code(&self, first: u8, second: u8) -> u8 {
        (u16::from(first) * self.second_count + u16::from(second)) as u8
    }
}

#[cfg(test)]
mod tests {
    use super::*;

    fn stage_mastheads() -> Kind {
        Kind::pair(Kind::Stage, Kind::Mastheads)
    }

    fn samples() -> Vec<Kind> {
        let large = Kind::pair(stage_mastheads(), Kind::Stage);
        vec![
            Kind::Stage,
            Kind::Mastheads,
            stage_mastheads(),
            Kind::pair(Kind::Mastheads, Kind::Stage),
            large.clone(),
            Kind::pair(large.clone(), Kind::Stage),
            Kind::pair(Kind::Mastheads, large),
        ]
    }

    #[test]
    fn worked_pair() {
        let kind = stage_mastheads();
        assert_eq!(kind.count(), 256);
        assert!(!kind.at_or_below(0x31, 0x24));
        assert!(!kind.at_or_below(0x24, 0x31));
        assert_eq!(kind.join(0x31, 0x24), 0x35);
    }

    #[test]
    fn too_large_a_pair() {
        let large = Kind::pair(stage_mastheads(), Kind::Stage);
        assert_eq!(large.count(), 1);
        assert!(large.at_or_below(0, 0));
        assert_eq!(large.join(0, 0), 0);
        assert!(!large.at_or_below(1, 1));
        assert_eq!(Kind::pair(large, Kind::Stage).count(), 16);
    }

    #[test]
    fn codes_that_are_no_label() {
        for kind in samples() {
            for code in 0..=255u8 {
                if u16::from(code) >= kind.count() {
                    assert!(!kind.at_or_below(code, code));
                    assert!(!kind.at_or_below(0, code));
                    assert_eq!(kind.join(code, 0), 0);
                    assert_eq!(kind.join(0, code), 0);
                }
            }
        }
    }

    #[test]
    fn laws() {
        for kind in samples() {
            let labels: Vec<u8> = (0..=255u8).filter(|&code| kind.is_label(code)).collect();
            for &a in &labels {
                assert!(kind.at_or_below(a, a));
                assert!(kind.at_or_below(0, a));
                for &b in &labels {
                    assert!(!(kind.at_or_below(a, b) && kind.at_or_below(b, a)) || a == b);
                    let join = kind.join(a, b);
                    assert!(kind.at_or_below(a, join) && kind.at_or_below(b, join));
                    for &c in labels.iter().step_by(7) {
                        if kind.at_or_below(a, c) && kind.at_or_below(b, c) {
                            assert!(kind.at_or_below(join, c));
                        }
                        if kind.at_or_below(a, b) && kind.at_or_below(b, c) {
                            assert!(kind.at_or_below(a, c));
                        }
                    }
                }
            }
        }
    }
}
