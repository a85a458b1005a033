//! The two calls on trees, made of the library: what each returns, and what it leaves in the
//! lent buffers and around them, must be what is due.

use crate::buffers::{needed, Buffers, Lengths};
use crate::chance::Chance;
use crate::decision::{widened, Call, Decision, Verdict};
use crate::implied::rooms;
use crate::library::ChoiceFound;
use crate::limits::{LINE_NUMBERS, NO};
use crate::lines::{zero, Line};
use crate::second::{decide_refusal, list_refusal, Answer};
use crate::trees::{self, Picked, Refusal};

/// The result of a call that is refused.
const REFUSED: i64 = -1;

/// The first choice of a tree that can be met, and its model.
#[derive(Clone, Debug, PartialEq, Eq)]
pub enum First {
    Yes(usize, Vec<i64>),
    No,
    Refused(u8, usize),
}

/// A list of n variables, and the numbers of a tree over its lines.
#[derive(Clone, Copy, Debug)]
pub struct Asked<'a> {
    pub n: u64,
    pub list: &'a [i32],
    pub tree: &'a [u32],
}

/// The number and the place of a refusal.
fn parts(refused: Answer) -> Refusal {
    match refused {
        Answer::Refused(number, place) => (number, place),
        _ => unreachable!(),
    }
}

impl Asked<'_> {
    /// The choices of the tree, or what list or tree are refused with.
    pub fn choices(self) -> Result<Vec<Picked>, Refusal> {
        if let Some(refused) = list_refusal(self.n, self.list) {
            return Err(parts(refused));
        }
        let tree = trees::taken(self.tree, self.list.len() / LINE_NUMBERS)?;
        Ok(tree.choices())
    }

    /// What is due beside the answer: a refusal of list or tree, or of the buffers.
    fn first_refusal(self, [model, work]: [usize; 2]) -> Option<Refusal> {
        if let Err(refused) = self.choices() {
            return Some(refused);
        }
        let [model_room, work_room] = rooms(self.n);
        if model < model_room {
            return Some((7, 1));
        }
        (work < work_room).then_some((8, 0))
    }

    /// The lines that a choice picks, or what is refused, in buffers of these lengths.
    fn picked(self, choice: u64, lengths: Lengths) -> Result<Picked, Refusal> {
        let choices = self.choices()?;
        let choice = usize::try_from(choice).ok();
        let picked = choice
            .and_then(|choice| choices.get(choice))
            .ok_or((43, 0))?;
        match decide_refusal(self.n, self.list, lengths) {
            Some(refused) => Err(parts(refused)),
            None => Ok(picked.clone()),
        }
    }

    /// Asks for the first choice that can be met, in buffers of these lengths. Which it is
    /// to be is for the caller to say.
    pub fn first_in(self, chance: &mut Chance, lengths: [usize; 2]) -> First {
        let mut buffers = Buffers::new(chance, [lengths[0], 0, 0, 0, 0, lengths[1]]);
        let mut allowed = buffers.clone();
        let read = (self.list.to_vec(), self.tree.to_vec());
        let found = buffers.tree_first(self.n, self.list, self.tree);
        let due = self.first_refusal(lengths);
        let [room, work_room] = rooms(if due.is_some() { 0 } else { self.n });
        let first = match due {
            Some(refused) => {
                self.must_be_refused(found, refused);
                First::Refused(refused.0, refused.1)
            }
            None => {
                allowed.work.lent_mut()[..work_room].fill(0);
                assert_eq!((found.refusal, found.place), (0, 0), "{self:?}");
                let model = &buffers.model.lent()[..room];
                match found.result {
                    0 => First::Yes(found.choice as usize, widened(model)),
                    result => {
                        assert_eq!((result, found.choice), (NO as i64, 0), "{self:?}");
                        First::No
                    }
                }
            }
        };
        if let First::Yes(..) = &first {
            let model = &buffers.model.lent()[..room];
            allowed.model.lent_mut()[..room].copy_from_slice(model);
        }
        assert!(buffers == allowed, "the buffers or around\n{self:?}");
        assert!(read == (self.list.to_vec(), self.tree.to_vec()), "{self:?}");
        first
    }

    /// The same in buffers that are long enough.
    pub fn first(self, chance: &mut Chance) -> First {
        let lengths = rooms(self.n).map(|room| room + chance.pick(&[0, 0, 1, 7]));
        self.first_in(chance, lengths)
    }

    /// Decides a choice in these buffers, with all that must hold of an answer: the model
    /// meets the lines picked, the refutation is accepted against the whole list, its steps
    /// are of lines picked, and nothing else is written.
    pub fn decide_in(self, buffers: &mut Buffers, choice: u64) -> Decision {
        let before = buffers.clone();
        let read = (self.list.to_vec(), self.tree.to_vec());
        let found = buffers.tree_decide(self.n, self.list, self.tree, choice);
        assert!(read == (self.list.to_vec(), self.tree.to_vec()), "{self:?}");
        match self.picked(choice, before.lengths()) {
            Err(refused) => {
                self.must_be_refused(found, refused);
                assert!(*buffers == before, "a refusal changed a buffer\n{self:?}");
                Decision {
                    verdict: Verdict::Refused(refused.0, refused.1),
                    refutation: Vec::new(),
                    identifiers: Vec::new(),
                }
            }
            Ok(picked) => {
                let answered = (found.refusal, found.place, found.choice);
                assert_eq!(answered, (0, 0, choice), "{self:?}");
                self.decision(&picked, found.result, [&before, buffers])
            }
        }
    }

    /// The same in buffers that are long enough.
    pub fn decide(self, chance: &mut Chance, choice: usize) -> Decision {
        self.decide_in(&mut Buffers::enough(chance, self.n), choice as u64)
    }

    /// The answer on a choice that picks these lines, by this result and the buffers before
    /// and after.
    fn decision(self, picked: &Picked, result: i64, [before, after]: [&Buffers; 2]) -> Decision {
        let list = match result {
            0 => masked(self.list, picked),
            _ => self.list.to_vec(),
        };
        let call = Call {
            n: self.n,
            list: &list,
            due: None,
            result,
            rooms: needed,
        };
        let decision = call.decision(before, after);
        let steps = decision.refutation.iter().skip(3);
        let own = |&step: &u32| picked.contains(&(step as usize / 2));
        assert!(
            steps.clone().all(own),
            "steps of other lines than {picked:?}: {:?}\n{self:?}",
            decision.refutation
        );
        decision
    }

    fn must_be_refused(self, found: ChoiceFound, (number, place): Refusal) {
        let due = ChoiceFound {
            result: REFUSED,
            refusal: u64::from(number),
            place: place as u64,
            choice: 0,
        };
        assert_eq!(found, due, "{self:?}");
    }
}

/// The list with 0 ≤ 0 in place of the lines that are not picked.
fn masked(list: &[i32], picked: &Picked) -> Vec<i32> {
    let mut list = list.to_vec();
    for (number, line) in list.chunks_mut(LINE_NUMBERS).enumerate() {
        if !picked.contains(&number) {
            line.copy_from_slice(&zero(0));
        }
    }
    list
}

/// The lines that are picked, alone.
pub fn lines_of(lines: &[Line], picked: &Picked) -> Vec<Line> {
    picked.iter().map(|&line| lines[line]).collect()
}
