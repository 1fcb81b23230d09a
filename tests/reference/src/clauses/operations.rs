//! What an operation on a table shows: what is appended, why it is refused, and
//! how the kept numbers move.

use crate::extension::{Kept, Operation, Report, MOST_KEPT};
use crate::table::{self, ContentModel, Table};
use crate::vectors::operations::Row;
use crate::{Refusal, MOST_MEMBERS, MOST_TYPES};

/// Something that an operation shows.
#[derive(Debug, Clone, Copy, PartialEq, Eq, PartialOrd, Ord)]
pub enum OperationClause {
    Text,
    Empty,
    Sequence,
    Choice,
    OptionalChoice,
    List,
    NamesItself,
    LastType,
    HeldType,
    NotOneType,
    OneTypeMore,
    TypeOfTooMany,
    NoSuchType,
    RepeatedType,
    NoInstance,
    NothingToExtend,
    NoChoice,
    OneMemberMore,
    NoSuchMember,
    RepeatedMember,
    ChoiceFirst,
    LimitFirst,
    OperandFirst,
    RepeatFirst,
    OptionalMember,
    HigherMember,
    LowerMember,
    Itself,
    LastMember,
    MovedAlone,
    MovedAbove,
    BothFall,
    LengthStays,
    LengthGrows,
    OnlyLengthFalls,
    OnlyLengthGrows,
    HeldComesDown,
    ComesToBeHeld,
}

impl OperationClause {
    /// All clauses, each with its text.
    pub const ALL: [(OperationClause, &'static str); 38] = [
        (OperationClause::Text, "a text is appended"),
        (OperationClause::Empty, "an empty type is appended"),
        (OperationClause::Sequence, "a sequence is appended"),
        (OperationClause::Choice, "a needed choice is appended"),
        (OperationClause::OptionalChoice, "an optional choice is appended"),
        (OperationClause::List, "a list is appended"),
        (OperationClause::NamesItself, "the new type names itself"),
        (OperationClause::LastType, "the new type is the 64th"),
        (OperationClause::HeldType, "the new type's length is held"),
        (OperationClause::NotOneType, "not exactly one type"),
        (OperationClause::OneTypeMore, "a 65th type"),
        (OperationClause::TypeOfTooMany, "a type with a 17th member"),
        (OperationClause::NoSuchType, "the new type names a type that there isn't"),
        (OperationClause::RepeatedType, "a new choice names a type twice"),
        (OperationClause::NoInstance, "the new type has no finite instance"),
        (OperationClause::NothingToExtend, "the type to extend doesn't exist"),
        (OperationClause::NoChoice, "the type to extend is no choice"),
        (OperationClause::OneMemberMore, "a 17th member of a choice"),
        (OperationClause::NoSuchMember, "a member that there isn't"),
        (OperationClause::RepeatedMember, "a member that the choice has"),
        (OperationClause::ChoiceFirst, "19 before 4"),
        (OperationClause::LimitFirst, "3 before 4"),
        (OperationClause::OperandFirst, "4 before 5"),
        (OperationClause::RepeatFirst, "5 before 6"),
        (OperationClause::OptionalMember, "a member of an optional choice is appended"),
        (OperationClause::HigherMember, "a member as high as another of the choice, or higher, is appended"),
        (OperationClause::LowerMember, "a member lower than all others of the choice is appended"),
        (OperationClause::Itself, "a choice gets itself as a member"),
        (OperationClause::LastMember, "the new member is the 16th"),
        (OperationClause::MovedAlone, "the numbers of the choice alone move"),
        (OperationClause::MovedAbove, "numbers of other types move too"),
        (OperationClause::BothFall, "a height and its length fall"),
        (OperationClause::LengthStays, "a height falls, and its length stays"),
        (OperationClause::LengthGrows, "a height falls, and its length grows"),
        (OperationClause::OnlyLengthFalls, "a height stays, and its length falls"),
        (OperationClause::OnlyLengthGrows, "a height stays, and its length grows"),
        (OperationClause::HeldComesDown, "a held length comes down"),
        (OperationClause::ComesToBeHeld, "a length comes to be held"),
    ];
}

/// What each operation of a row shows, with the reference's report.
pub fn shown(row: &Row, report: &Report) -> Vec<Vec<OperationClause>> {
    let tables = row.tables().expect("an accepted table");
    let steps = row.operations.iter().zip(&report.answers).zip(tables.windows(2));
    let shown = steps.map(|((operation, &answer), tables)| {
        let [before, after] = [&tables[0], &tables[1]];
        Step { table: &before.table, operation, answer, before: &before.kept, after: &after.kept }.shown()
    });
    shown.collect()
}

/// An operation on a table, its answer, and what is kept before and after it.
pub struct Step<'a> {
    pub table: &'a Table,
    pub operation: &'a Operation,
    pub answer: Result<u64, Refusal>,
    pub before: &'a [Kept],
    pub after: &'a [Kept],
}

impl Step<'_> {
    /// What this step shows. The first says what is appended, or why it is
    /// refused.
    pub fn shown(&self) -> Vec<OperationClause> {
        match (self.operation, self.answer) {
            (Operation::AppendType(commands), answer) => match (table::read_one(commands), answer) {
                (Some(model), Ok(_)) => self.new_type(&model),
                (Some(model), Err(refusal)) => self.refused_type(&model, refusal.number),
                (None, _) => vec![OperationClause::NotOneType],
            },
            (&Operation::AppendMember { extended, member }, Ok(_)) => self.new_member(extended, member),
            (&Operation::AppendMember { extended, member }, Err(refusal)) => {
                self.refused_member(extended, member, refusal.number)
            }
        }
    }

    /// What a new type shows.
    fn new_type(&self, model: &ContentModel) -> Vec<OperationClause> {
        let kind = match model {
            ContentModel::Text => OperationClause::Text,
            ContentModel::Empty => OperationClause::Empty,
            ContentModel::Sequence(_) => OperationClause::Sequence,
            ContentModel::Choice(_) => OperationClause::Choice,
            ContentModel::OptionalChoice(_) => OperationClause::OptionalChoice,
            ContentModel::List(_) => OperationClause::List,
        };
        let names_itself = model.named().iter().any(|&member| member as usize == self.before.len());
        let is_held = self.after.last().is_some_and(|kept| kept.length == MOST_KEPT);
        let tests = [
            (OperationClause::NamesItself, names_itself),
            (OperationClause::LastType, self.after.len() == MOST_TYPES),
            (OperationClause::HeldType, is_held),
        ];
        with(kind, &tests)
    }

    /// What the refusal of a type shows.
    fn refused_type(&self, model: &ContentModel, number: u64) -> Vec<OperationClause> {
        let (named, count) = (model.named(), self.before.len());
        let beyond = named.iter().any(|&member| member as usize > count);
        let repeats = model.is_choice() && (1..named.len()).any(|at| named[..at].contains(&named[at]));
        let only_itself = named.iter().all(|&member| member as usize == count);
        match number {
            3 if count == MOST_TYPES => {
                with(OperationClause::OneTypeMore, &[(OperationClause::LimitFirst, beyond)])
            }
            3 => with(OperationClause::TypeOfTooMany, &[(OperationClause::LimitFirst, beyond)]),
            4 => with(OperationClause::NoSuchType, &[(OperationClause::OperandFirst, repeats)]),
            5 => with(OperationClause::RepeatedType, &[(OperationClause::RepeatFirst, only_itself)]),
            _ => vec![OperationClause::NoInstance],
        }
    }

    /// What the refusal of a member shows.
    fn refused_member(&self, extended: u8, member: u8, number: u64) -> Vec<OperationClause> {
        let count = self.before.len();
        let beyond = member as usize >= count;
        match number {
            19 => {
                let exists = (extended as usize) < count;
                let why = if exists { OperationClause::NoChoice } else { OperationClause::NothingToExtend };
                with(why, &[(OperationClause::ChoiceFirst, beyond)])
            }
            3 => with(OperationClause::OneMemberMore, &[(OperationClause::LimitFirst, beyond)]),
            4 => vec![OperationClause::NoSuchMember],
            _ => vec![OperationClause::RepeatedMember],
        }
    }

    /// What a new member shows.
    fn new_member(&self, extended: u8, member: u8) -> Vec<OperationClause> {
        let model = &self.table.types[extended as usize];
        let height = |t: u8| self.before[t as usize].height;
        let kind = match model.named().iter().all(|&other| height(member) < height(other)) {
            _ if model.is_optional() => OperationClause::OptionalMember,
            true => OperationClause::LowerMember,
            false => OperationClause::HigherMember,
        };
        let tests = [
            (OperationClause::Itself, member == extended),
            (OperationClause::LastMember, model.named().len() + 1 == MOST_MEMBERS),
        ];
        [with(kind, &tests), self.moved(extended)].concat()
    }

    /// How the kept numbers move where a type gets a member.
    fn moved(&self, extended: u8) -> Vec<OperationClause> {
        let pairs = || self.before.iter().zip(self.after);
        let is_moved = |t: usize| self.before[t] != self.after[t];
        let others = (0..self.before.len()).any(|t| t != extended as usize && is_moved(t));
        let any = |test: fn(&Kept, &Kept) -> bool| pairs().any(|(before, after)| test(before, after));
        let tests = [
            (OperationClause::MovedAlone, is_moved(extended as usize) && !others),
            (OperationClause::MovedAbove, others),
            (OperationClause::BothFall, any(|b, a| a.height < b.height && a.length < b.length)),
            (OperationClause::LengthStays, any(|b, a| a.height < b.height && a.length == b.length)),
            (OperationClause::LengthGrows, any(|b, a| a.height < b.height && a.length > b.length)),
            (OperationClause::OnlyLengthFalls, any(|b, a| a.height == b.height && a.length < b.length)),
            (OperationClause::OnlyLengthGrows, any(|b, a| a.height == b.height && a.length > b.length)),
            (OperationClause::HeldComesDown, any(|b, a| b.length == MOST_KEPT && a.length < MOST_KEPT)),
            (OperationClause::ComesToBeHeld, any(|b, a| b.length < MOST_KEPT && a.length == MOST_KEPT)),
        ];
        holding(&tests)
    }
}

/// A clause, and those of some others that hold.
fn with(first: OperationClause, tests: &[(OperationClause, bool)]) -> Vec<OperationClause> {
    [vec![first], holding(tests)].concat()
}

/// Those of some clauses that hold.
fn holding(tests: &[(OperationClause, bool)]) -> Vec<OperationClause> {
    tests.iter().filter(|test| test.1).map(|test| test.0).collect()
}
