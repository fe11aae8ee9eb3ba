//! Messages, views and the row store.

pub const LOCATIONS: usize = 8;
pub const CAPACITY: usize = 64;

/// One end for each location.
#[derive(Clone, Copy, Debug, PartialEq, Eq)]
pub struct View([u16; LOCATIONS]);

impl View {
    pub const ZERO: View = View([0; LOCATIONS]);

    #[inline(always)]
    pub fn at(&self, location: usize) -> u16 {
        self.0[location % LOCATIONS]
    }

    /// Takes in the view that is `end` at the location and 0 elsewhere. All places are written,
    /// so that the whole view can be read again without waiting for a narrow store.
    #[inline(always)]
    pub fn raise(&mut self, location: usize, end: u16) {
        const INDICES: [u16; LOCATIONS] = [0, 1, 2, 3, 4, 5, 6, 7];
        let location = location as u16;
        for (mine, index) in self.0.iter_mut().zip(INDICES) {
            let theirs = if index == location { end } else { 0 };
            *mine = (*mine).max(theirs);
        }
    }

    #[inline(always)]
    pub fn join(&mut self, other: &View) {
        for (mine, theirs) in self.0.iter_mut().zip(&other.0) {
            *mine = (*mine).max(*theirs);
        }
    }
}

#[derive(Clone, Copy, Debug)]
pub struct Message {
    pub location: usize,
    pub from: u16,
    pub to: u16,
    pub value: u16,
    pub view: View,
}

impl Message {
    pub fn initial(location: usize) -> Message {
        Message { location, from: 0, to: 0, value: 0, view: View::ZERO }
    }
}

/// A set of arrival numbers.
#[derive(Clone, Copy, Debug, PartialEq, Eq)]
pub struct Arrivals(u64);

impl Arrivals {
    pub const NONE: Arrivals = Arrivals(0);

    #[inline(always)]
    pub fn is_empty(self) -> bool {
        self.0 == 0
    }

    #[inline(always)]
    pub fn has(self, arrival: usize) -> bool {
        self.0 & Self::bit(arrival) != 0
    }

    #[inline(always)]
    pub fn meets(self, other: Arrivals) -> bool {
        self.0 & other.0 != 0
    }

    #[inline(always)]
    pub fn insert(&mut self, arrival: usize) {
        self.0 |= Self::bit(arrival);
    }

    #[inline(always)]
    pub fn remove(&mut self, arrival: usize) {
        self.0 &= !Self::bit(arrival);
    }

    #[inline(always)]
    fn bit(arrival: usize) -> u64 {
        1 << (arrival % CAPACITY)
    }
}

/// The messages of one location in order of their ends.
#[derive(Clone, Copy)]
struct Row {
    ends: [u16; CAPACITY],
    arrivals: [u8; CAPACITY],
    count: usize,
    members: Arrivals,
}

impl Row {
    const EMPTY: Row =
        Row { ends: [0; CAPACITY], arrivals: [0; CAPACITY], count: 0, members: Arrivals::NONE };

    #[inline(always)]
    fn ends(&self) -> &[u16] {
        &self.ends[..self.count]
    }

    /// New messages mostly come last in their row, and those to be dropped stand there.
    #[inline(always)]
    fn insert(&mut self, end: u16, arrival: usize) {
        let mut place = self.count;
        while place > 0 && self.ends[place - 1] > end {
            self.ends[place] = self.ends[place - 1];
            self.arrivals[place] = self.arrivals[place - 1];
            place -= 1;
        }
        self.ends[place] = end;
        self.arrivals[place] = arrival as u8;
        self.count += 1;
        self.members.insert(arrival);
    }

    #[inline(always)]
    fn remove(&mut self, end: u16, arrival: usize) {
        if let Some(place) = self.ends().iter().rposition(|&other| other == end) {
            for next in place + 1..self.count {
                self.ends[next - 1] = self.ends[next];
                self.arrivals[next - 1] = self.arrivals[next];
            }
            self.count -= 1;
            self.members.remove(arrival);
        }
    }
}

/// Messages in order of arrival, with a row for each location.
#[derive(Clone)]
pub struct Store {
    messages: [Message; CAPACITY],
    count: usize,
    rows: [Row; LOCATIONS],
}

impl Store {
    pub fn new(locations: usize) -> Store {
        let mut store = Store {
            messages: [Message::initial(0); CAPACITY],
            count: 0,
            rows: [Row::EMPTY; LOCATIONS],
        };
        for location in 0..locations {
            store.add(Message::initial(location));
        }
        store
    }

    pub fn messages(&self) -> &[Message] {
        &self.messages[..self.count]
    }

    #[inline(always)]
    pub fn count(&self) -> usize {
        self.count
    }

    #[inline(always)]
    pub fn is_full(&self) -> bool {
        self.count >= CAPACITY
    }

    /// Adds a message; the span is free. A full store stays as it is.
    #[inline(always)]
    pub fn add(&mut self, message: Message) -> bool {
        let Some(place) = self.messages.get_mut(self.count) else {
            return false;
        };
        *place = message;
        self.rows[message.location % LOCATIONS].insert(message.to, self.count);
        self.count += 1;
        true
    }

    /// The arrival number and the message of the location with this end.
    #[inline(always)]
    pub fn find(&self, location: usize, end: u16) -> Option<(usize, &Message)> {
        let row = &self.rows[location % LOCATIONS];
        let place = row.ends().binary_search(&end).ok()?;
        let arrival = usize::from(row.arrivals[place]);
        Some((arrival, &self.messages[arrival % CAPACITY]))
    }

    /// Whether no message of the location overlaps (from, to]. Only the first one that ends
    /// above `from` can, since the spans of a row follow one another.
    #[inline(always)]
    pub fn is_free(&self, location: usize, from: u16, to: u16) -> bool {
        let row = &self.rows[location % LOCATIONS];
        let place = row.ends().partition_point(|&end| end <= from);
        if place == row.count {
            return true;
        }
        let arrival = usize::from(row.arrivals[place]);
        self.messages[arrival % CAPACITY].from >= to
    }

    /// The arrival numbers of the location's messages.
    #[inline(always)]
    pub fn members(&self, location: usize) -> Arrivals {
        self.rows[location % LOCATIONS].members
    }

    /// The greatest end at each location.
    #[inline(always)]
    pub fn greatest(&self) -> View {
        let mut view = View::ZERO;
        for (place, row) in view.0.iter_mut().zip(&self.rows) {
            *place = row.ends().last().copied().unwrap_or(0);
        }
        view
    }

    /// Drops all but the first `count` messages.
    #[inline(always)]
    pub fn keep(&mut self, count: usize) {
        while self.count > count {
            self.count -= 1;
            let message = &self.messages[self.count % CAPACITY];
            self.rows[message.location % LOCATIONS].remove(message.to, self.count);
        }
    }
}
