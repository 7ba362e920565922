//! 01's single library: a count and 128 carts, with no copies. Written on
//! bytes, apart from the simulator.

pub const UNIT: usize = 80;

fn number(unit: &[u8]) -> usize {
    usize::from(unit[2]) | usize::from(unit[3]) << 8
}

/// Where the operation's cart begins in a copy, if it has one.
pub fn cart_at(operation: &[u8]) -> Option<usize> {
    let number = number(operation);
    (1..=128).contains(&number).then(|| UNIT * (number - 1))
}

/// Whether the operation meets its cart in the right state in this copy.
pub fn meets(copy: &[u8], operation: &[u8]) -> bool {
    let Some(at) = cart_at(operation) else { return false };
    match operation[0] {
        1 => copy[at] != 1,
        2..=4 => copy[at] == 1,
        _ => false,
    }
}

/// The operation's effect on this copy.
pub fn act(copy: &mut [u8], operation: &[u8]) {
    let Some(at) = cart_at(operation).filter(|_| meets(copy, operation)) else { return };
    let cart = &mut copy[at..at + UNIT];
    match operation[0] {
        1 => {
            cart[0] = 1;
            cart[1..12].copy_from_slice(&operation[1..12]);
            cart[16..].copy_from_slice(&operation[16..]);
        }
        2 => {
            cart[1] = operation[1];
            cart[16..].copy_from_slice(&operation[16..]);
        }
        3 => cart[4..12].copy_from_slice(&operation[4..12]),
        _ => cart.fill(0),
    }
}

#[derive(Clone)]
pub struct SingleLibrary {
    count: u32,
    carts: Vec<u8>,
}

impl SingleLibrary {
    pub fn new() -> SingleLibrary {
        SingleLibrary::begun(&[0; 128 * UNIT], 0)
    }

    /// One that begins with these carts, so many commits already played (02's S-9).
    pub fn begun(carts: &[u8], count: u32) -> SingleLibrary {
        SingleLibrary { count, carts: carts.to_vec() }
    }

    /// The commit's number; for refusal 8 the count of commits at which it is refused.
    pub fn commit(&mut self, operations: &[u8]) -> Result<u32, u32> {
        let mut carts = self.carts.clone();
        for operation in operations.chunks_exact(UNIT) {
            if !meets(&carts, operation) {
                return Err(self.count);
            }
            act(&mut carts, operation);
        }
        self.carts = carts;
        self.count += 1;
        Ok(self.count)
    }

    /// State, found, and the bytes that the answer writes.
    pub fn read(&self, request: &[u8]) -> (u32, u32, Vec<u8>) {
        let (found, written) = read(&self.carts, request);
        (self.count, found, written)
    }
}

/// What a request in form finds in a copy, and the bytes that the answer writes.
pub fn read(copy: &[u8], request: &[u8]) -> (u32, Vec<u8>) {
    if request[0] == 1 { read_numbers(copy, request) } else { read_title(copy, request) }
}

fn read_numbers(copy: &[u8], request: &[u8]) -> (u32, Vec<u8>) {
    let mut written = Vec::new();
    let mut found = 0;
    for i in 0..usize::from(request[1]) {
        let asked = usize::from(request[16 + 2 * i]) | usize::from(request[17 + 2 * i]) << 8;
        let cart = &copy[UNIT * (asked - 1)..UNIT * asked];
        found += u32::from(cart[0] == 1);
        written.extend_from_slice(cart);
    }
    (found, written)
}

fn read_title(copy: &[u8], request: &[u8]) -> (u32, Vec<u8>) {
    let length = usize::from(request[1]);
    let wanted = &request[16..16 + length];
    let mut found = 0;
    let mut written = vec![0; UNIT];
    for cart in copy.chunks_exact(UNIT) {
        let titled = cart[0] == 1 && usize::from(cart[1]) == length;
        if titled && cart[16..16 + length] == *wanted {
            found += 1;
            written.copy_from_slice(cart);
        }
    }
    if found != 1 {
        written.fill(0);
    }
    (found, written)
}
