//! Reading octets from front to back. Numbers are most significant octet first, but in record data, where the table
//! states their order.

/// The order of a number's octets in record data.
#[derive(Clone, Copy, Debug, PartialEq, Eq, PartialOrd, Ord)]
pub enum Order {
    /// Big-endian: most significant octet first.
    Big,
    /// Little-endian: least significant octet first.
    Little,
}

impl Order {
    /// The order that a table's flags state; `None` for flags that no table has.
    pub fn of_flags(flags: u8) -> Option<Order> {
        match flags {
            0 => Some(Order::Little),
            1 => Some(Order::Big),
            _ => None,
        }
    }

    /// The other order.
    pub fn other(self) -> Order {
        match self {
            Order::Big => Order::Little,
            Order::Little => Order::Big,
        }
    }

    /// The flags of a table of this order.
    pub fn flags(self) -> u8 {
        match self {
            Order::Big => 1,
            Order::Little => 0,
        }
    }
}

/// The number that the octets hold, most significant octet first (at most 8 octets are meant).
pub fn number(octets: &[u8]) -> u64 {
    octets.iter().fold(0, |value, octet| (value << 8) | u64::from(*octet))
}

/// The number that the octets hold in that order.
pub fn number_in(order: Order, octets: &[u8]) -> u64 {
    match order {
        Order::Big => number(octets),
        Order::Little => octets.iter().rev().fold(0, |value, octet| (value << 8) | u64::from(*octet)),
    }
}

/// What is left to read of a list of octets. A reading that does not fit answers `None`.
pub struct Reader<'a> {
    pub rest: &'a [u8],
}

impl<'a> Reader<'a> {
    pub fn new(octets: &'a [u8]) -> Reader<'a> {
        Reader { rest: octets }
    }

    /// The next `length` octets.
    pub fn take(&mut self, length: usize) -> Option<&'a [u8]> {
        let taken = self.rest.get(..length)?;
        self.rest = self.rest.get(length..)?;
        Some(taken)
    }

    /// The next octet.
    pub fn u8(&mut self) -> Option<u8> {
        self.take(1)?.first().copied()
    }

    /// The next two octets as a number.
    pub fn u16(&mut self) -> Option<u16> {
        Some(u16::from_be_bytes(self.take(2)?.try_into().ok()?))
    }

    /// The next four octets as a number.
    pub fn u32(&mut self) -> Option<u32> {
        Some(u32::from_be_bytes(self.take(4)?.try_into().ok()?))
    }
}
