//! A week of one log from the command line: what the program `havdrims` does.
//!
//! [`card`] is the folder of one kiosk and what a command does with it; the file of its checkpoint is that of
//! [`havdrims::save`], [`evenings`] what it keeps of each evening besides, [`letters`] the names of letters, and
//! [`followed`] the cards that go on from it; [`kept`] is what can
//! be told of one that is damaged. [`file`](mod@file) writes a file outside of cards. [`disk`] is the few operations on files that
//! these need, so that tests can cut a run at each of them; [`beside`] finds what a mistyped name may mean. [`command`] reads the words of a command line, [`convert`] turns rules and
//! logs into text and back, [`wrong`] finds where they are wrong, and [`waiting`] says what would settle the positions that a log leaves
//! open. For people: [`words`] says a formula in words, [`why`] the reason of a verdict, which [`telling`] tells in sentences, and
//! [`page`] is a page for the week; [`beginning`] says of both where a card begins in the middle of a log; [`parts`] has the entries of a
//! rule for these, [`back`] how far it looks back, and [`named`] its letters' names.

pub mod back;
pub mod beginning;
pub mod beside;
pub mod card;
pub mod command;
pub mod convert;
pub mod disk;
pub mod evenings;
pub mod file;
pub mod followed;
pub mod kept;
pub mod letters;
pub mod named;
pub mod page;
pub mod parts;
pub mod telling;
pub mod waiting;
pub mod why;
pub mod words;
pub mod wrong;
