//! What the compared schedules made happen, counted by stepping each of them
//! once more and looking at where the process stood before its step.

use stepper::{
    perform, read_act, set_up, Access, Act, Answer, Board, Kind, Place, Records, Refusal,
    MOST_PROCESSES, MOST_VARIABLES,
};

#[derive(Default)]
pub struct Coverage {
    values: u64,
    witnesses: u64,
    yes: u64,
    no: u64,
    failed_segment_swaps: u64,
    second_reads: u64,
    overwritten_rows: u64,
    helping_swaps: u64,
    failed_header_swaps: u64,
    stores_cut_short: u64,
    tag_wraps: u64,
    tags_met_again: u64,
    /// By refusal number.
    refused: [u64; 13],
    refused_set_ups: [u64; 13],
    /// One bit for each size seen: kind, N, T, b, W.
    kinds: u64,
    processes: u64,
    variables: u64,
    tag_bits: u64,
    segments: u64,
}

/// What is remembered of a run between its records.
#[derive(Default)]
struct Remembered {
    /// What each process's last failed segment swap would have put in.
    announced: [u64; MOST_PROCESSES],
    /// Successful stores to each variable, and how many there were at each
    /// process's last load of it.
    stores: [u64; MOST_VARIABLES],
    loaded_at: [[u64; MOST_VARIABLES]; MOST_PROCESSES],
}

impl Coverage {
    pub fn watch(&mut self, schedule: &[u8]) {
        let mut records = Records::new(schedule);
        let Ok(Some(first)) = records.next_record() else {
            return;
        };
        let mut board = match set_up(first, false) {
            Ok(board) => board,
            Err(refusal) => {
                self.refused_set_ups[refusal.number() as usize] += 1;
                return;
            }
        };
        self.note_sizes(&board);
        self.watch_records(&mut records, &mut board);
    }

    pub fn note_limit(&mut self, refused: bool) {
        self.refused[Refusal::Limit.number() as usize] += u64::from(refused);
    }

    fn note_sizes(&mut self, board: &Board) {
        let settings = board.settings();
        self.kinds |= 1 << u64::from(settings.kind == Kind::Many);
        self.processes |= 1 << settings.processes;
        self.variables |= 1 << settings.variables;
        self.tag_bits |= 1 << settings.tag_bits;
        self.segments |= 1 << settings.segments;
    }

    fn watch_records(&mut self, records: &mut Records<&[u8]>, board: &mut Board) {
        let mut run = Remembered::default();
        while let Ok(Some(record)) = records.next_record() {
            let mover = record.fields().and_then(|fields| read_act(&fields, board.segment_count()));
            let before = match mover {
                Ok((process, Act::Step)) if process < board.settings().processes => {
                    Some((process as usize, board.process(process as usize).place))
                }
                _ => None,
            };
            let answer = match perform(record, board) {
                Ok((_, _, answer)) => answer,
                Err(refusal) => Answer::Refused(refusal),
            };
            self.note_answer(answer);
            if let Some((process, place)) = before {
                self.note_step(&mut run, board, process, place, answer);
            }
        }
    }

    fn note_answer(&mut self, answer: Answer) {
        match answer {
            Answer::Begun | Answer::Busy => {}
            Answer::Value(_) => self.values += 1,
            Answer::Witness(_) => self.witnesses += 1,
            Answer::Yes => self.yes += 1,
            Answer::No => self.no += 1,
            Answer::Refused(refusal) => self.refused[refusal.number() as usize] += 1,
        }
    }

    fn note_step(
        &mut self,
        run: &mut Remembered,
        board: &Board,
        p: usize,
        before: Place,
        answer: Answer,
    ) {
        match before {
            Place::LoadWord { var } | Place::LoadHeader { var } => {
                run.loaded_at[p][var] = run.stores[var];
            }
            Place::ValidateWord { var } | Place::ValidateHeader { var } => {
                if answer == Answer::Yes {
                    self.note_old_tag(run, p, var);
                }
            }
            Place::SwapHeader { .. } if answer == Answer::No => self.failed_header_swaps += 1,
            Place::SwapWord { .. } if answer == Answer::No => {}
            Place::SwapWord { var } | Place::SwapHeader { var, .. } => {
                self.note_store(run, board, p, var);
            }
            Place::Copy { copy, access } => {
                if let Access::ReadHeader { .. } = access {
                    let cut_short = !copy.gathers && board.first_word(copy.var) != copy.header;
                    self.stores_cut_short += u64::from(cut_short);
                } else {
                    self.note_segment(run, p, access, copy.gathers, board.process(p).place);
                }
            }
            Place::Idle | Place::StoreHeader { .. } | Place::Announce { .. } => {}
        }
    }

    /// A successful swap: the new tag is 0 where the tags have wrapped.
    fn note_store(&mut self, run: &mut Remembered, board: &Board, p: usize, var: usize) {
        self.note_old_tag(run, p, var);
        run.stores[var] += 1;
        let tag = board.layout().tag(board.first_word(var));
        self.tag_wraps += u64::from(tag == 0);
    }

    /// A yes although others stored since the load: past demand 3's premise.
    fn note_old_tag(&mut self, run: &Remembered, p: usize, var: usize) {
        let again = run.loaded_at[p][var] != run.stores[var];
        self.tags_met_again += u64::from(again);
    }

    fn note_segment(
        &mut self,
        run: &mut Remembered,
        p: usize,
        access: Access,
        gathers: bool,
        after: Place,
    ) {
        let Place::Copy { access: after, .. } = after else {
            return;
        };
        match (access, after) {
            (Access::SwapSegment { announced, .. }, Access::ReadSegmentAgain) => {
                self.failed_segment_swaps += 1;
                run.announced[p] = announced;
            }
            (Access::SwapSegment { .. }, _) => self.helping_swaps += u64::from(gathers),
            (Access::ReadSegmentAgain, Access::ReadHeader { value }) => {
                self.second_reads += 1;
                self.overwritten_rows += u64::from(value != run.announced[p]);
            }
            _ => {}
        }
    }

    /// Everything wanted, each with how often it happened.
    pub fn counts(&self) -> Vec<(String, u64)> {
        let mut counts: Vec<(String, u64)> = [
            ("loads answered with values", self.values),
            ("witnesses", self.witnesses),
            ("yes", self.yes),
            ("no", self.no),
            ("failed segment swaps", self.failed_segment_swaps),
            ("second reads", self.second_reads),
            ("second reads that found the announce row overwritten", self.overwritten_rows),
            ("segments filled by another's load", self.helping_swaps),
            ("failed header swaps", self.failed_header_swaps),
            ("stores cut short in Copy, yes", self.stores_cut_short),
            ("tag wraps", self.tag_wraps),
            ("yes on a tag met again", self.tags_met_again),
        ]
        .map(|(name, count)| (name.to_string(), count))
        .to_vec();
        for number in [4, 5, 6, 7, 8, 9, 10, 11, 12] {
            counts.push((format!("refused {number}"), self.refused[number]));
        }
        for number in [1, 10, 11] {
            counts.push((format!("set-up refused {number}"), self.refused_set_ups[number]));
        }
        counts
    }

    /// Sizes seen in accepted set-ups: name, how many, of how many.
    pub fn sizes(&self) -> [(&'static str, u32, u32); 5] {
        [
            ("kinds", self.kinds.count_ones(), 2),
            ("N", self.processes.count_ones(), 16),
            ("T", self.variables.count_ones(), 16),
            ("b", self.tag_bits.count_ones(), 45),
            ("W", self.segments.count_ones(), 4),
        ]
    }
}
