//! What the numbers of books and statements stand for.

use std::fmt;

use crate::numbered::numbered;

numbered! {
    /// What a line of a statement is for. ACE is the energy consumed, ASOE the energy
    /// sent out.
    Part {
        ContingencyAce = 1, "contingency by ACE";
        ContingencyAsoe = 2, "contingency by ASOE";
        UnitFpp = 3, "a unit's FPP";
        UnitUsed = 4, "a unit's used regulation";
        UnitUnused = 5, "a unit's unused regulation";
        ResidualFpp = 6, "residual FPP";
        ResidualUsed = 7, "residual used regulation";
        ResidualUnused = 8, "residual unused regulation";
        ContractAce = 9, "contract by ACE";
        ContractAsoe = 10, "contract by ASOE";
    }
}

numbered! {
    /// The service of a constraint.
    Service {
        VeryFastRaise = 1, "very fast raise";
        VeryFastLower = 2, "very fast lower";
        FastRaise = 3, "fast raise";
        FastLower = 4, "fast lower";
        SlowRaise = 5, "slow raise";
        SlowLower = 6, "slow lower";
        DelayedRaise = 7, "delayed raise";
        DelayedLower = 8, "delayed lower";
        RegulationRaise = 9, "regulation raise";
        RegulationLower = 10, "regulation lower";
    }
}

numbered! {
    /// A region of the market.
    Region {
        Nsw1 = 0, "NSW1";
        Qld1 = 1, "QLD1";
        Sa1 = 2, "SA1";
        Tas1 = 3, "TAS1";
        Vic1 = 4, "VIC1";
    }
}

numbered! {
    /// How a constraint is settled: contingency goes with services 1 to 8, factored and
    /// default (no factors were received) with 9 and 10.
    Mode {
        Contingency = 0, "contingency";
        Factored = 1, "factored";
        Default = 2, "default";
    }
}

numbered! {
    /// What a restart contract's payment is for, as the reconciliation file has it.
    PaymentType {
        Availability = 0, "AVAILABILITY";
        Enablement = 1, "ENABLEMENT";
        Compensation = 2, "COMPENSATION";
    }
}

numbered! {
    /// A stage of rounding between a pool and its lines, in the order in which a pool has
    /// them. What stages cut off is why a balance is not nil.
    Stage {
        Line = 1, "the lines of a contingency constraint";
        Pool = 2, "the making of a pool";
        Unit = 3, "the units' lines";
        Residual = 4, "the residual pool";
        Share = 5, "the residual lines";
        Whole = 6, "a region's part of a contract";
        Half = 7, "a contract's halves";
        Ace = 8, "a contract's lines by ACE";
        Asoe = 9, "a contract's lines by ASOE";
    }
}

impl Stage {
    /// Whether contracts have it, each for every region that benefits.
    pub const fn is_of_a_contract(self) -> bool {
        matches!(self, Stage::Whole | Stage::Half | Stage::Ace | Stage::Asoe)
    }
}

impl Service {
    /// Whether it raises the frequency; else it lowers it.
    pub const fn is_raise(self) -> bool {
        self.number() % 2 == 1
    }

    /// Whether it is regulation; else it is a contingency service.
    pub const fn is_regulation(self) -> bool {
        matches!(self, Service::RegulationRaise | Service::RegulationLower)
    }
}

/// A call that asks for a service takes any number: a service stands for its own.
impl From<Service> for u64 {
    fn from(service: Service) -> Self {
        service.number().into()
    }
}

/// A call that asks for a payment type takes any number: a payment type stands for its own.
impl From<PaymentType> for u64 {
    fn from(payment_type: PaymentType) -> Self {
        payment_type.number().into()
    }
}

/// A set of regions, as the mask of a constraint or of a line has it.
///
/// ```
/// use fervolatro::{Region, Regions};
///
/// let regions = Regions::from_mask(0b10100).unwrap();
/// assert_eq!(regions.to_string(), "SA1, VIC1");
/// assert!(regions.contains(Region::Vic1));
/// assert_eq!(regions, Regions::from_iter([Region::Vic1, Region::Sa1]));
/// ```
#[derive(Clone, Copy, PartialEq, Eq, Hash)]
pub struct Regions {
    mask: u8,
}

impl Regions {
    /// The regions of a mask, bit 0 for NSW1; none where a bit is that of no region.
    pub const fn from_mask(mask: u8) -> Option<Self> {
        match mask {
            0..=31 => Some(Regions { mask }),
            _ => None,
        }
    }

    /// One bit for each region, bit 0 for NSW1.
    pub const fn mask(self) -> u8 {
        self.mask
    }

    pub const fn contains(self, region: Region) -> bool {
        self.mask >> region.number() & 1 == 1
    }

    /// The regions, rising.
    pub fn iter(self) -> impl Iterator<Item = Region> {
        let all = Region::ALL.iter().copied();
        all.filter(move |&region| self.contains(region))
    }
}

impl FromIterator<Region> for Regions {
    fn from_iter<I: IntoIterator<Item = Region>>(regions: I) -> Self {
        let bits = regions.into_iter().map(|region| 1 << region.number());
        Regions {
            mask: bits.fold(0, |mask, bit: u8| mask | bit),
        }
    }
}

impl fmt::Display for Regions {
    fn fmt(&self, out: &mut fmt::Formatter<'_>) -> fmt::Result {
        let names: Vec<&str> = self.iter().map(Region::words).collect();
        out.pad(&names.join(", "))
    }
}

impl fmt::Debug for Regions {
    fn fmt(&self, out: &mut fmt::Formatter<'_>) -> fmt::Result {
        out.debug_set().entries(self.iter()).finish()
    }
}

#[cfg(test)]
mod tests {
    use super::{Mode, Part, PaymentType, Region, Regions, Service, Stage};

    #[test]
    fn odd_services_raise_and_the_last_two_are_regulation() {
        use Service::*;
        let raising = [
            VeryFastRaise,
            FastRaise,
            SlowRaise,
            DelayedRaise,
            RegulationRaise,
        ];
        for &service in Service::ALL {
            assert_eq!(service.is_raise(), raising.contains(&service), "{service}");
            assert_eq!(service.words().ends_with("raise"), service.is_raise());
            assert_eq!(service.is_regulation(), service.number() >= 9, "{service}");
        }
    }

    #[test]
    fn services_are_the_numbers_1_to_10() {
        let numbers = Service::ALL.iter().map(|&service| u64::from(service));
        assert!(numbers.eq(1..=10));
    }

    #[test]
    fn payment_types_are_the_numbers_0_to_2() {
        let numbers = PaymentType::ALL.iter().map(|&kind| u64::from(kind));
        assert!(numbers.eq(0..=2));
    }

    #[test]
    fn the_last_four_stages_are_a_contract_s() {
        for &stage in Stage::ALL {
            assert_eq!(stage.is_of_a_contract(), stage.number() >= 6, "{stage}");
        }
    }

    /// Every mask of five bits is the set of its regions, and no other is one.
    #[test]
    fn masks_are_sets_of_regions() {
        for mask in 0..=u8::MAX {
            let Some(regions) = Regions::from_mask(mask) else {
                assert!(mask > 31, "{mask}");
                continue;
            };
            let bits = [(1, Region::Nsw1), (2, Region::Qld1), (4, Region::Sa1)];
            for (bit, region) in bits
                .into_iter()
                .chain([(8, Region::Tas1), (16, Region::Vic1)])
            {
                assert_eq!(regions.contains(region), mask & bit != 0, "{mask}");
            }
            assert_eq!(regions.mask(), mask);
            assert_eq!(Regions::from_iter(regions.iter()), regions);
            assert_eq!(regions.iter().count() as u32, mask.count_ones());
        }
    }

    #[test]
    fn kinds_are_said_in_words() {
        assert_eq!(
            Part::ResidualUnused.to_string(),
            "residual unused regulation"
        );
        assert_eq!(Mode::Default.to_string(), "default");
        assert_eq!(PaymentType::Enablement.to_string(), "ENABLEMENT");
        assert_eq!(format!("[{:>6}]", Region::Sa1), "[   SA1]");
        let regions = Regions::from_iter([Region::Vic1, Region::Nsw1]);
        assert_eq!(regions.to_string(), "NSW1, VIC1");
        assert_eq!(format!("{regions:?}"), "{Nsw1, Vic1}");
    }
}
