//! How functions are built.
use cmph_c_sys as sys;

/// An algorithm, by which a function gives its keys numbers.
#[derive(Clone, Copy, Debug, PartialEq, Eq, Hash)]
#[non_exhaustive]
pub enum Algorithm {
    /// The numbers of the keys are their places, from 0, in the list that the function was built over.
    Chm,
    /// All numbers below the number of keys, in no order that means anything.
    Bdz,
    /// Numbers with gaps, below about 1.23 times the number of keys, in the smallest function.
    BdzPh,
    /// All numbers below the number of keys, which are split into buckets, for many keys.
    Brz,
}

impl Algorithm {
    pub(crate) fn of(number: u32) -> Option<Algorithm> {
        match number {
            sys::CMPH_C_CHM => Some(Algorithm::Chm),
            sys::CMPH_C_BDZ => Some(Algorithm::Bdz),
            sys::CMPH_C_BDZ_PH => Some(Algorithm::BdzPh),
            sys::CMPH_C_BRZ => Some(Algorithm::Brz),
            _ => None,
        }
    }

    fn number(self) -> u32 {
        match self {
            Algorithm::Chm => sys::CMPH_C_CHM,
            Algorithm::Bdz => sys::CMPH_C_BDZ,
            Algorithm::BdzPh => sys::CMPH_C_BDZ_PH,
            Algorithm::Brz => sys::CMPH_C_BRZ,
        }
    }
}

/// How a function is built. Begin with the plan of an algorithm, which has the defaults of the program `cmph`:
///
/// ```
/// use cmph::Plan;
///
/// let plan = Plan { seed: 5, tries: 50, ..Plan::bdz() };
/// assert_eq!(plan.ratio, 1_230_000);
/// ```
#[derive(Clone, Copy, Debug, PartialEq, Eq, Hash)]
pub struct Plan {
    /// The algorithm. [`Algorithm::Brz`] is a bad plan of [`build_into`](crate::build_into), and the only one of
    /// [`build_brz_into`](crate::build_brz_into) that is not.
    pub algorithm: Algorithm,
    /// Vertices a key, from 1,000,000 to 10,000,000 millionths.
    pub ratio: u32,
    /// By BDZ a rank is kept for every `2^b` cells, with b from 3 to 10. By BRZ a bucket has b keys on average, from 64 to 700. The others do
    /// not use it.
    pub b: u32,
    /// The first seed that is tried.
    pub seed: u32,
    /// How many seeds are tried, from 1 to 1,000.
    pub tries: u32,
}

impl Plan {
    /// A build by CHM, with 2.09 vertices a key.
    pub const fn chm() -> Plan {
        Plan::by(Algorithm::Chm, 2_090_000)
    }

    /// A build by BDZ, with 1.23 vertices a key, and a rank for every 128 cells.
    pub const fn bdz() -> Plan {
        Plan::by(Algorithm::Bdz, 1_230_000)
    }

    /// A build by BDZ_PH, with 1.23 vertices a key.
    pub const fn bdz_ph() -> Plan {
        Plan::by(Algorithm::BdzPh, 1_230_000)
    }

    /// A build by BRZ, with 1.23 vertices a key, and 128 keys a bucket on average.
    pub const fn brz() -> Plan {
        let plan = Plan::by(Algorithm::Brz, 1_230_000);
        Plan { b: 128, ..plan }
    }

    const fn by(algorithm: Algorithm, ratio: u32) -> Plan {
        Plan {
            algorithm,
            ratio,
            b: 7,
            seed: 1,
            tries: 100,
        }
    }

    pub(crate) fn raw(&self) -> sys::cmph_c_plan {
        sys::cmph_c_plan {
            algorithm: self.algorithm.number(),
            ratio: self.ratio,
            b: self.b,
            seed: self.seed,
            tries: self.tries,
        }
    }
}

/// A build by CHM, which is the default of the program `cmph`.
impl Default for Plan {
    fn default() -> Plan {
        Plan::chm()
    }
}
