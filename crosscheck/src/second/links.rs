//! The links (M.2092-1, Annex 2, Tables 4, 5 and 6; document 01, "The links"; document 02, K4).

/// How many copies of X, Y0, Y1, X', Y'0 and Y'1 pass at one clock.
pub type Clock = [usize; 6];

/// A link's row of Table 4, with its pattern of Table 5 and its tail of Table 6.
#[derive(Debug)]
pub struct Link {
    pub number: u32,
    pub k: usize,
    pub k1: usize,
    pub k2: usize,
    pub primes: [usize; 8],
    pub pattern: Vec<Clock>,
    pub tail: [Clock; 6],
}

impl Link {
    /// p1 to p8.
    pub fn prime(&self, q: usize) -> usize {
        self.primes[q - 1]
    }

    /// The bytes that the link holds.
    pub fn bytes(&self) -> usize {
        (self.k - 32) / 8
    }

    /// The zero bits between the bytes and the check.
    pub fn bits_over(&self) -> usize {
        (self.k - 32) % 8
    }

    /// What passes at the s-th clock, counted from 1.
    pub fn passing(&self, s: usize) -> Clock {
        self.pattern[(s - 1) % self.pattern.len()]
    }

    /// N, the length of the image.
    pub fn image_length(&self) -> usize {
        let data = (1..=self.k).map(|s| self.passing(s));
        data.chain(self.tail).flatten().sum()
    }

    /// The place in the image, from 0, of X of each of the k clocks, where it stands once.
    pub fn data_places(&self) -> Vec<usize> {
        let mut places = Vec::new();
        let mut place = 0;
        for s in 1..=self.k {
            let clock = self.passing(s);
            assert_eq!(clock[0], 1, "X does not pass once at clock {s}");
            places.push(place);
            place += clock.iter().sum::<usize>();
        }
        places
    }
}

/// The links that are offered, in Table 4's order.
pub struct Links(Vec<Link>);

impl Links {
    pub fn new(offered: Vec<Link>) -> Links {
        Links(offered)
    }

    pub fn all(&self) -> &[Link] {
        &self.0
    }

    pub fn get(&self, number: u32) -> Option<&Link> {
        self.0.iter().find(|link| link.number == number)
    }

    /// A link that is known to be offered.
    pub fn of(&self, number: u32) -> &Link {
        self.get(number)
            .unwrap_or_else(|| panic!("link {number} is not offered"))
    }
}
