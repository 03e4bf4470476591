//! The plan run for money, written by hand: what the proved planner is measured against.
//!
//! A set of members is a word of 64 bits, with member k at place k. The run comes in two forms that
//! take the same steps and give the same answers: one follows the rules one by one, as the proved
//! planner does, and one has a search with shortcuts.

/// The most members of a circle, and the length of every table by member.
pub const MEMBERS: usize = 64;

/// The length of a table of transfers. Giver j's transfer to receiver i stands at place 64 j + i.
pub const PAIRS: usize = MEMBERS * MEMBERS;

/// The greatest amount of money.
const MOST: u64 = 1_000_000_000_000_000_000;

/// How a run ended, and the number of its steps.
#[derive(Clone, Copy, PartialEq, Eq, Debug)]
pub enum Answer {
    Plan { steps: u64 },
    Blocked { steps: u64, members: u64 },
}

/// Why a call is refused before it runs.
#[derive(Clone, Copy, PartialEq, Eq, Debug)]
pub enum Refusal {
    Length,
    MemberRange,
    PermissionWord,
    NotAnAmount,
}

/// The members of a set, in rising number.
struct Members(u64);

impl Iterator for Members {
    type Item = usize;

    #[inline]
    fn next(&mut self) -> Option<usize> {
        if self.0 == 0 {
            return None;
        }
        let member = self.0.trailing_zeros() as usize;
        self.0 &= self.0 - 1;
        Some(member)
    }
}

#[inline]
fn one(member: usize) -> u64 {
    1 << member
}

/// A member's number in a byte; the mask shows the compiler that it is in range.
#[inline]
fn member(byte: u8) -> usize {
    byte as usize % MEMBERS
}

/// How a search ended: at a receiver who has something to get, or with these givers reached.
enum Found {
    Receiver(usize),
    Nobody { reached: u64 },
}

/// What a search has marked: givers, receivers, and how many givers joined the queue.
struct Marks {
    reached: u64,
    seen: u64,
    tail: usize,
}

struct Run<'a> {
    permitted: &'a [u64; MEMBERS],
    transfers: &'a mut [u64; PAIRS],
    to_give: &'a mut [u64; MEMBERS],
    to_get: &'a mut [u64; MEMBERS],
    /// Who has something to give.
    givers: u64,
    /// Who has something to get.
    takers: u64,
    /// For each receiver, the givers with a transfer to it above zero.
    holders: [u64; MEMBERS],
    queue: [u8; MEMBERS],
    /// For each receiver reached, the giver that it was reached from.
    from: [u8; MEMBERS],
    /// For each giver reached and not starting, the receiver that it was reached from.
    via: [u8; MEMBERS],
}

// Both forms of the run use these functions; all are inlined, so that each form keeps its words in
// registers.
impl Run<'_> {
    /// Looks for a way from a giver with something to give to a receiver with something to get.
    #[inline(always)]
    fn search(&mut self) -> Found {
        let mut reached = self.givers;
        let mut seen = 0;
        let mut head = 0;
        let mut tail = 0;
        for giver in Members(self.givers) {
            self.queue[tail % MEMBERS] = giver as u8;
            tail += 1;
        }
        while head < tail {
            let giver = member(self.queue[head % MEMBERS]);
            head += 1;
            let new = self.permitted[giver] & !seen;
            for receiver in Members(new) {
                self.from[receiver] = giver as u8;
                if self.takers & one(receiver) != 0 {
                    return Found::Receiver(receiver);
                }
                let back = self.holders[receiver] & !reached;
                reached |= back;
                for holder in Members(back) {
                    self.via[holder] = receiver as u8;
                    self.queue[tail % MEMBERS] = holder as u8;
                    tail += 1;
                }
            }
            seen |= new;
        }
        Found::Nobody { reached }
    }

    /// The same search with shortcuts that change no step. A receiver with something to get is
    /// never passed by, so a giver who permits some ends the search at the first of them, whatever
    /// was seen before. Starting givers are tried so before anything is marked, and need no place
    /// in the queue. A receiver that leads back to nobody new needs no mark.
    #[inline(always)]
    fn search_short(&mut self) -> Found {
        for giver in Members(self.givers) {
            if let Some(receiver) = self.open_to(giver) {
                return Found::Receiver(receiver);
            }
        }
        let mut marks = Marks {
            reached: self.givers,
            seen: 0,
            tail: 0,
        };
        for giver in Members(self.givers) {
            self.reach_from(giver, &mut marks);
        }
        let mut head = 0;
        while head < marks.tail {
            let giver = member(self.queue[head % MEMBERS]);
            head += 1;
            if let Some(receiver) = self.open_to(giver) {
                return Found::Receiver(receiver);
            }
            self.reach_from(giver, &mut marks);
        }
        Found::Nobody {
            reached: marks.reached,
        }
    }

    /// The first receiver with something to get that a giver permits.
    #[inline(always)]
    fn open_to(&mut self, giver: usize) -> Option<usize> {
        let receiver = Members(self.permitted[giver] & self.takers).next()?;
        self.from[receiver] = giver as u8;
        Some(receiver)
    }

    /// Reaches the receivers that a giver permits, and from them the givers who hold a transfer to
    /// one.
    #[inline(always)]
    fn reach_from(&mut self, giver: usize, marks: &mut Marks) {
        let new = self.permitted[giver] & !marks.seen;
        marks.seen |= new;
        for receiver in Members(new) {
            let back = self.holders[receiver] & !marks.reached;
            if back != 0 {
                self.from[receiver] = giver as u8;
                marks.reached |= back;
                for holder in Members(back) {
                    self.via[holder] = receiver as u8;
                    self.queue[marks.tail % MEMBERS] = holder as u8;
                    marks.tail += 1;
                }
            }
        }
    }

    /// The least amount on the way back from a receiver.
    #[inline(always)]
    fn least(&self, end: usize) -> u64 {
        let mut amount = self.to_get[end];
        let mut giver = member(self.from[end]);
        while self.givers & one(giver) == 0 {
            let receiver = member(self.via[giver]);
            amount = amount.min(self.transfers[MEMBERS * giver + receiver]);
            giver = member(self.from[receiver]);
        }
        amount.min(self.to_give[giver])
    }

    /// Moves the least amount along the way back from a receiver.
    #[inline(always)]
    fn step(&mut self, end: usize) {
        let amount = self.least(end);
        let mut receiver = end;
        let giver = loop {
            let giver = member(self.from[receiver]);
            self.transfers[MEMBERS * giver + receiver] += amount;
            self.holders[receiver] |= one(giver);
            if self.givers & one(giver) != 0 {
                break giver;
            }
            receiver = member(self.via[giver]);
            let transfer = &mut self.transfers[MEMBERS * giver + receiver];
            *transfer -= amount;
            if *transfer == 0 {
                self.holders[receiver] &= !one(giver);
            }
        };
        self.to_give[giver] -= amount;
        if self.to_give[giver] == 0 {
            self.givers &= !one(giver);
        }
        self.to_get[end] -= amount;
        if self.to_get[end] == 0 {
            self.takers &= !one(end);
        }
    }

    /// One step after another, until a search finds nobody.
    fn answer<const SHORT: bool>(&mut self) -> Answer {
        let mut steps = 0;
        loop {
            match if SHORT {
                self.search_short()
            } else {
                self.search()
            } {
                Found::Receiver(end) => self.step(end),
                Found::Nobody { .. } if self.givers == 0 => return Answer::Plan { steps },
                Found::Nobody { reached } => {
                    return Answer::Blocked {
                        steps,
                        members: reached,
                    };
                }
            }
            steps += 1;
        }
    }
}

/// Fills the tables with the run's last values. What stands beyond the first n weights and words is
/// ignored. `SHORT` chooses the search with shortcuts.
pub fn plan<const SHORT: bool>(
    n: usize,
    weights: &[u64],
    permissions: &[u64],
    transfers: &mut [u64],
    to_give: &mut [u64],
    to_get: &mut [u64],
) -> Result<Answer, Refusal> {
    let weights: &[u64; MEMBERS] = weights.try_into().map_err(|_| Refusal::Length)?;
    let permitted: &[u64; MEMBERS] = permissions.try_into().map_err(|_| Refusal::Length)?;
    let transfers: &mut [u64; PAIRS] = transfers.try_into().map_err(|_| Refusal::Length)?;
    let to_give: &mut [u64; MEMBERS] = to_give.try_into().map_err(|_| Refusal::Length)?;
    let to_get: &mut [u64; MEMBERS] = to_get.try_into().map_err(|_| Refusal::Length)?;
    if !(1..=MEMBERS).contains(&n) {
        return Err(Refusal::MemberRange);
    }
    let all = u64::MAX >> (MEMBERS - n);
    if permitted[..n]
        .iter()
        .enumerate()
        .any(|(giver, word)| word & !(all & !one(giver)) != 0)
    {
        return Err(Refusal::PermissionWord);
    }
    if weights[..n].iter().any(|&weight| weight > MOST) {
        return Err(Refusal::NotAnAmount);
    }
    transfers.fill(0);
    to_give[..n].copy_from_slice(&weights[..n]);
    to_give[n..].fill(0);
    *to_get = *to_give;
    let mut starting = 0;
    for (giver, &amount) in to_give.iter().enumerate() {
        starting |= u64::from(amount > 0) << giver;
    }
    let mut run = Run {
        permitted,
        transfers,
        to_give,
        to_get,
        givers: starting,
        takers: starting,
        holders: [0; MEMBERS],
        queue: [0; MEMBERS],
        from: [0; MEMBERS],
        via: [0; MEMBERS],
    };
    Ok(run.answer::<SHORT>())
}
