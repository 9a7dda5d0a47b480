//! The doors of the proved library, each as `include/balduqen.h` has it: buffers of any length are
//! lent, and the answer is a few words. On refusal each buffer keeps what it held; the numbers are
//! those of `Cause`. This is the one declaration of the doors in Rust.
//!
//! A slice goes as a pointer and then a length; that of an empty Rust slice is a valid pointer to
//! nothing. Each call hands over slices that live through it, and what is filled is borrowed by
//! nobody else, which is what makes the unsafe blocks sound.

use crate::refusal::Refusal;
use crate::{Priced, Saved, Verdict};

/// A number and a place, and the verdict beside them where a plan is given or made and accepted.
#[must_use = "an answer may be a refusal"]
#[repr(C)]
#[derive(Clone, Copy, Debug, Default, PartialEq, Eq)]
pub struct Answer {
    /// 0 is acceptance, and any other the number of a refusal.
    pub number: u32,
    /// Where it is refused, as its `Cause` has it, or 0.
    pub place: u32,
    /// The plan's page count, or 0.
    pub pages: u32,
    /// The weight of the plan's root page, or 0.
    pub root: u32,
}

/// The words of an `Answer`, and what the plan costs.
#[must_use = "a price may be a refusal"]
#[repr(C)]
#[derive(Clone, Copy, Debug, Default, PartialEq, Eq)]
pub struct Price {
    /// 0 is acceptance, and any other the number of a refusal.
    pub number: u32,
    /// Where it is refused, as its `Cause` has it, or 0.
    pub place: u32,
    /// The plan's page count, or 0 where it is refused.
    pub pages: u32,
    /// The weight of the plan's root page, or 0 where it is refused.
    pub root: u32,
    /// The plan's total in cents, or 0 where it is refused.
    pub cents: u32,
}

/// The words of an `Answer` on the best plan, and what this costs less than the single planner's.
#[must_use = "a saving may be a refusal"]
#[repr(C)]
#[derive(Clone, Copy, Debug, Default, PartialEq, Eq)]
pub struct Saving {
    /// 0 is acceptance, and any other the number of a refusal.
    pub number: u32,
    /// Where it is refused, as its `Cause` has it, or 0.
    pub place: u32,
    /// The best plan's page count, or 0 where it is refused.
    pub pages: u32,
    /// The weight of the best plan's root page, or 0 where it is refused.
    pub root: u32,
    /// The difference in cents, which can be below 0; 0 where it is refused.
    pub saving: i32,
}

/// A count as a word of an answer: the highest where it has no room for it.
fn in_word(count: usize) -> u32 {
    u32::try_from(count).unwrap_or(u32::MAX)
}

impl Answer {
    /// Acceptance where there is no plan.
    pub const ACCEPTED: Answer = Answer {
        number: 0,
        place: 0,
        pages: 0,
        root: 0,
    };

    /// Acceptance of a plan with this page count, at most `u32::MAX`, and root weight.
    pub fn accepted(pages: usize, root: u32) -> Answer {
        Answer {
            pages: in_word(pages),
            root,
            ..Answer::ACCEPTED
        }
    }

    /// Refusal with this number at this place, at most `u32::MAX`.
    pub fn refused(number: u32, place: usize) -> Answer {
        Answer {
            number,
            place: in_word(place),
            ..Answer::ACCEPTED
        }
    }

    /// Whether the number is 0.
    #[must_use]
    pub fn is_accepted(&self) -> bool {
        self.number == 0
    }

    /// The verdict, or the refusal with its cause; the pages and the root weight of a plan that was
    /// not given are 0.
    pub fn result(self) -> Result<Verdict, Refusal> {
        Refusal::unless_accepted(self.number, self.place)?;
        Ok(Verdict {
            pages: self.pages as usize,
            root: self.root,
        })
    }
}

impl Price {
    /// Acceptance of a plan with this page count, at most `u32::MAX`, and root weight, that costs
    /// this.
    pub fn accepted(pages: usize, root: u32, cents: u32) -> Price {
        Price {
            pages: in_word(pages),
            root,
            cents,
            ..Price::default()
        }
    }

    /// Refusal with this number at this place, at most `u32::MAX`.
    pub fn refused(number: u32, place: usize) -> Price {
        Price {
            number,
            place: in_word(place),
            ..Price::default()
        }
    }

    /// All but the cents.
    pub fn answer(&self) -> Answer {
        Answer {
            number: self.number,
            place: self.place,
            pages: self.pages,
            root: self.root,
        }
    }

    /// The verdict and the cents, or the refusal with its cause.
    pub fn result(self) -> Result<Priced, Refusal> {
        Ok(Priced {
            verdict: self.answer().result()?,
            cents: self.cents,
        })
    }
}

impl Saving {
    /// Acceptance with this page count, at most `u32::MAX`, and root weight of the best plan, and
    /// this saving.
    pub fn accepted(pages: usize, root: u32, saving: i32) -> Saving {
        Saving {
            pages: in_word(pages),
            root,
            saving,
            ..Saving::default()
        }
    }

    /// Refusal with this number at this place, at most `u32::MAX`.
    pub fn refused(number: u32, place: usize) -> Saving {
        Saving {
            number,
            place: in_word(place),
            ..Saving::default()
        }
    }

    /// All but the saving.
    pub fn answer(&self) -> Answer {
        Answer {
            number: self.number,
            place: self.place,
            pages: self.pages,
            root: self.root,
        }
    }

    /// The verdict on the best plan and the saving, or the refusal with its cause.
    pub fn result(self) -> Result<Saved, Refusal> {
        Ok(Saved {
            verdict: self.answer().result()?,
            saving: self.saving,
        })
    }
}

/// Whether the table holds a tree that can be planned. Refuses 1 to 4, 6, 7 and 14; 7 means that no
/// plan at all holds the tree.
pub fn read_tree(table: &[u8]) -> Answer {
    extern "C" {
        fn balduqen_read_tree(table: *const u8, table_length: usize) -> Answer;
    }
    unsafe { balduqen_read_tree(table.as_ptr(), table.len()) }
}

/// An entry that is lent a table and a plan, and fills nothing.
macro_rules! judge {
    ($(#[$told:meta])+ $name:ident, $entry:ident, $answer:ty) => {
        $(#[$told])+
        pub fn $name(table: &[u8], marks: &[u8]) -> $answer {
            extern "C" {
                fn $entry(
                    table: *const u8,
                    table_length: usize,
                    marks: *const u8,
                    marks_length: usize,
                ) -> $answer;
            }
            unsafe { $entry(table.as_ptr(), table.len(), marks.as_ptr(), marks.len()) }
        }
    };
}

judge!(
    /// Whether the marks are a plan of the tree with no page over the limit. Refuses 1 to 4, 6 to
    /// 8, 10, 11 and 14.
    judge, balduqen_judge, Answer
);

judge!(
    /// What the plan costs, whoever made it. Refuses where `judge` does: 1 to 4, 6 to 8, 10, 11 and
    /// 14.
    price, balduqen_price, Price
);

/// An entry with the buffers of a planner.
macro_rules! planner {
    ($(#[$told:meta])+ $name:ident, $entry:ident, $answer:ty) => {
        $(#[$told])+
        ///
        /// The marks are one a node, and get the plan. The scratch has at least `scratch_length`
        /// words, and is left 0. Refuses 1 to 4, 6 to 9 and 14.
        pub fn $name(table: &[u8], marks: &mut [u8], scratch: &mut [u32]) -> $answer {
            extern "C" {
                fn $entry(
                    table: *const u8,
                    table_length: usize,
                    marks: *mut u8,
                    marks_length: usize,
                    scratch: *mut u32,
                    scratch_length: usize,
                ) -> $answer;
            }
            let (table, table_length) = (table.as_ptr(), table.len());
            let (marks, marks_length) = (marks.as_mut_ptr(), marks.len());
            let (scratch, scratch_length) = (scratch.as_mut_ptr(), scratch.len());
            unsafe {
                $entry(
                    table,
                    table_length,
                    marks,
                    marks_length,
                    scratch,
                    scratch_length,
                )
            }
        }
    };
}

planner!(
    /// Cuts the heaviest child, as a run by itself, until the rest fits.
    plan_single, balduqen_plan_single, Answer
);

planner!(
    /// Cuts the heaviest on the tree of first children and next siblings, so that runs can be
    /// longer.
    plan_pair, balduqen_plan_pair, Answer
);

planner!(
    /// Plans as `plan_best` does, but each branch keeps its own best plan.
    plan_level, balduqen_plan_level, Answer
);

planner!(
    /// Finds the fewest pages of all plans and, with as many, the lightest root page.
    plan_best, balduqen_plan_best, Answer
);

planner!(
    /// Cuts runs of last children, each as long as a page holds, until the rest fits. Its steps are
    /// linear in the nodes.
    plan_rightmost, balduqen_plan_rightmost, Answer
);

planner!(
    /// Lays each node, in their order, on the page begun last where it fits and its parent or its
    /// previous sibling is there, and else begins a page. Its steps are linear in the nodes.
    plan_depth_first, balduqen_plan_depth_first, Answer
);

planner!(
    /// What the plan of `plan_best`, which the marks get, costs less than that of `plan_single`.
    saving, balduqen_saving, Saving
);

/// An entry that judges a plan and fills a buffer.
macro_rules! writer {
    ($(#[$told:meta])+ $name:ident, $entry:ident) => {
        $(#[$told])+
        pub fn $name(table: &[u8], marks: &[u8], out: &mut [u8]) -> Answer {
            extern "C" {
                fn $entry(
                    table: *const u8,
                    table_length: usize,
                    marks: *const u8,
                    marks_length: usize,
                    out: *mut u8,
                    out_length: usize,
                ) -> Answer;
            }
            let (table, table_length) = (table.as_ptr(), table.len());
            let (marks, marks_length) = (marks.as_ptr(), marks.len());
            let (out, out_length) = (out.as_mut_ptr(), out.len());
            unsafe { $entry(table, table_length, marks, marks_length, out, out_length) }
        }
    };
}

writer!(
    /// Writes the archive of a tree of up to 1024 nodes and a plan, in its first edition. The
    /// output has exactly `archive_length` bytes. Refuses 1 to 4, 6 to 8, 10 to 12, 14 and 15.
    write_archive, balduqen_write_archive
);

writer!(
    /// Writes the archive of a tree and a plan in edition 2. The output has exactly
    /// `archive_length` bytes. Refuses 1 to 4, 6 to 8, 10 to 12 and 14.
    write_archive2, balduqen_write_archive2
);

writer!(
    /// Prints any plan that the judge accepts as leader sheets. The output has exactly
    /// `sheets_length` bytes. Refuses 1 to 4, 6 to 8, 10 to 12 and 14.
    print_sheets, balduqen_print_sheets
);

/// An entry that reads an archive into a table and marks.
macro_rules! reader {
    ($(#[$told:meta])+ $name:ident, $entry:ident) => {
        $(#[$told])+
        ///
        /// Refuses 13 where no tree and plan write it in this edition, then 12 unless the table has
        /// exactly `table_length` bytes, then 8 unless the marks are one a node.
        pub fn $name(archive: &[u8], table: &mut [u8], marks: &mut [u8]) -> Answer {
            extern "C" {
                fn $entry(
                    archive: *const u8,
                    archive_length: usize,
                    table: *mut u8,
                    table_length: usize,
                    marks: *mut u8,
                    marks_length: usize,
                ) -> Answer;
            }
            let (archive, archive_length) = (archive.as_ptr(), archive.len());
            let (table, table_length) = (table.as_mut_ptr(), table.len());
            let (marks, marks_length) = (marks.as_mut_ptr(), marks.len());
            unsafe {
                $entry(
                    archive,
                    archive_length,
                    table,
                    table_length,
                    marks,
                    marks_length,
                )
            }
        }
    };
}

reader!(
    /// Reads the tree and the plan back from an archive of the first edition, also from older film
    /// that has labels 0.
    read_archive, balduqen_read_archive
);

reader!(
    /// Reads the tree and the plan back from an archive of edition 2.
    read_archive2, balduqen_read_archive2
);

/// An entry that writes film of one edition as film of the other.
macro_rules! converter {
    ($(#[$told:meta])+ $name:ident, $entry:ident) => {
        $(#[$told])+
        pub fn $name(archive: &[u8], out: &mut [u8]) -> Answer {
            extern "C" {
                fn $entry(
                    archive: *const u8,
                    archive_length: usize,
                    out: *mut u8,
                    out_length: usize,
                ) -> Answer;
            }
            let (archive, archive_length) = (archive.as_ptr(), archive.len());
            let (out, out_length) = (out.as_mut_ptr(), out.len());
            unsafe { $entry(archive, archive_length, out, out_length) }
        }
    };
}

converter!(
    /// Writes film of the first edition as film of edition 2, with the same tree and plan. The
    /// output has exactly `archive_length` bytes. Refuses 13, then 14 where a label is 0, then 12.
    convert_to_2, balduqen_convert_to_2
);

converter!(
    /// Writes film of edition 2 as film of the first, with the same tree and plan. The output has
    /// exactly `archive_length` bytes. Refuses 13, then 15 where nodes are over 1024, then 12.
    convert_to_1, balduqen_convert_to_1
);

// The compiler finds an answer that is not looked at.
#[cfg(doctest)]
/// ```
/// #![deny(unused_must_use)]
/// let _ = balduqen::doors::judge(&[], &[]);
/// ```
/// ```compile_fail
/// #![deny(unused_must_use)]
/// balduqen::doors::judge(&[], &[]);
/// ```
/// ```compile_fail
/// #![deny(unused_must_use)]
/// balduqen::doors::price(&[], &[]);
/// ```
/// ```compile_fail
/// #![deny(unused_must_use)]
/// balduqen::doors::saving(&[], &mut [], &mut []);
/// ```
struct EveryAnswer;
