//! Which row fits which.

use crate::refusal::Lack;
use crate::sheet::{Kind, Row, ROW_LIMIT};

/// The answer of the fit question.
#[derive(Clone, Copy, Debug, PartialEq, Eq, PartialOrd, Ord, Hash)]
pub enum FitAnswer {
    Yes,
    /// A resource is given where pure is asked.
    Kind,
    /// The lowest name that is asked for and has no match.
    Member(u16),
}

impl FitAnswer {
    /// What is lacking; nothing where the answer is yes.
    pub fn lack(self) -> Option<Lack> {
        match self {
            FitAnswer::Yes => None,
            FitAnswer::Kind => Some(Lack::Kind),
            FitAnswer::Member(name) => Some(Lack::Member(name)),
        }
    }
}

/// What the fit question tells of rows a and b.
#[derive(Clone, Copy, Debug, PartialEq, Eq)]
pub struct FitTold {
    pub answer: FitAnswer,
    /// How many members of row a were passed on the way to the answer.
    pub passed: u32,
}

/// The fit of every row to every row, each pair settled once.
#[derive(Clone, Debug, Default)]
pub struct FitTable {
    /// `answers[a][b]` is the answer for row a and row b.
    answers: Vec<Vec<FitAnswer>>,
}

impl FitTable {
    pub fn of(rows: &[Row]) -> FitTable {
        let mut table = FitTable::default();
        for count in 1..=rows.len() {
            table.extend(&rows[..count]);
        }
        table
    }

    /// Settles the pairs of the last of these rows; the pairs of the rows
    /// before it are settled. Members name lower rows only, so every pair
    /// that an answer needs is already there.
    pub fn extend(&mut self, rows: &[Row]) {
        let last = rows.len() - 1;
        // Room for all at once: growing place by place takes longer.
        let room = Vec::with_capacity(usize::from(ROW_LIMIT));
        self.answers.push(room);
        for other in 0..last {
            let to_last = self.settle(&rows[other], &rows[last]);
            self.answers[other].push(to_last);
            let from_last = self.settle(&rows[last], &rows[other]);
            self.answers[last].push(from_last);
        }
        let to_itself = self.settle(&rows[last], &rows[last]);
        self.answers[last].push(to_itself);
    }

    /// Whether row a fits row b, and if not, what it lacks.
    pub fn answer(&self, a: u16, b: u16) -> FitAnswer {
        self.answers[usize::from(a)][usize::from(b)]
    }

    /// The answer for rows a and b of these rows, which are the settled ones,
    /// and the members of row a that were passed: those with names up to the
    /// answered one, on yes those up to b's last. None on kind, and none
    /// where b has no member.
    pub fn told(&self, rows: &[Row], a: u16, b: u16) -> FitTold {
        let (own, asked) = (&rows[usize::from(a)], &rows[usize::from(b)]);
        let answer = self.answer(a, b);
        let highest = match answer {
            FitAnswer::Yes => asked.members.last().map(|last| last.name),
            FitAnswer::Kind => None,
            FitAnswer::Member(name) => Some(name),
        };
        let passed = highest.map_or(0, |name| own.up_to(name));
        FitTold { answer, passed }
    }

    /// Whether row a fits row b.
    pub fn fits(&self, a: u16, b: u16) -> bool {
        self.answer(a, b) == FitAnswer::Yes
    }

    /// Kind comes before names, and names ascend, so the first member
    /// without a match is the lowest.
    fn settle(&self, a: &Row, b: &Row) -> FitAnswer {
        if a.resource && !b.resource {
            return FitAnswer::Kind;
        }
        let unmatched = b
            .members
            .iter()
            .find(|asked| !self.has_match(a, asked.name, asked.kind));
        unmatched.map_or(FitAnswer::Yes, |asked| FitAnswer::Member(asked.name))
    }

    /// Whether row a has a match for a member that is asked of it.
    fn has_match(&self, a: &Row, name: u16, asked: Kind) -> bool {
        match asked {
            // A field can be read and set, so its row may not vary.
            Kind::Field { row } => a.field(name) == Some(row),
            // The argument is compared the other way round.
            Kind::Method { argument, result } => a
                .method(name)
                .is_some_and(|own| self.fits(argument, own.0) && self.fits(own.1, result)),
        }
    }
}
