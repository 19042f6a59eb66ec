//! The crate statime's own code on the inputs of a row, where bench/run found its excerpts.
use crate::rows::{Row, Side};

/// What stands where there are no sides.
#[cfg(not(excerpts))]
pub const NONE: &str = "no excerpts";

#[cfg(not(excerpts))]
pub fn sides(_: &Row) -> Option<[Side; 2]> {
    None
}

#[cfg(not(excerpts))]
pub fn agree(_: &Row) -> Result<(), String> {
    Ok(())
}

#[cfg(excerpts)]
pub use there::{agree, sides, NONE};

#[cfg(excerpts)]
mod there {
    extern crate excerpts;

    use super::{Row, Side};
    use crate::compare::held;
    use crate::inputs::OWN;
    use crate::plain::decide::announce_words;
    use crate::plain::store::*;
    use crate::plain::*;
    use crate::proved;
    use crate::rows::{Call, Inputs, LAST};
    use excerpts::*;
    use std::cell::RefCell;
    use std::hint::black_box;
    use std::rc::Rc;

    /// The book of a store in the crate's lists.
    fn listed(store: &[u64]) -> Book {
        let list = store[4..HEAD_WORDS].first_chunk().copied();
        let intervals: Vec<u64> = ports(store).iter().map(|port| port[0]).collect();
        let mut book = Book::new(store[1], list.filter(|_| store[2] != 0), &intervals);
        for (q, port) in ports(store).iter().enumerate() {
            for (i, master) in masters(port).iter().enumerate() {
                for message in (0..master[3]).map(|k| slot(master, k)) {
                    let words = announce_words(message, master[0], master[1]);
                    let mut frame = [0; 64];
                    plain_write_announce(&words, &[], &mut frame);
                    book.add(q, i, &frame, message[2]);
                }
            }
        }
        book
    }

    fn books(inputs: &Inputs) -> Vec<Book> {
        inputs.books.iter().map(|store| listed(store)).collect()
    }

    fn own() -> excerpts::Own {
        let data = &LAST;
        excerpts::Own::new(
            OWN,
            data.priority_1,
            data.class,
            data.accuracy,
            data.variance,
            data.priority_2,
        )
    }

    /// The copy of a book alone, and a call on it.
    fn on_copy(
        inputs: &Inputs,
        mut call: impl FnMut(usize, &mut Book) -> u32 + 'static,
    ) -> [Side; 2] {
        let books = Rc::new(books(inputs));
        let book = Rc::new(RefCell::new(books[0].clone()));
        let ready = (books.clone(), book.clone());
        [
            Box::new(move |i| {
                let book = &mut *ready.1.borrow_mut();
                book.copy_from(&ready.0[i]);
                black_box(book);
                DONE
            }),
            Box::new(move |i| {
                let book = &mut *book.borrow_mut();
                book.copy_from(&books[i]);
                call(i, black_box(book))
            }),
        ]
    }

    /// Nothing, and a call that is lent no book.
    fn alone(mut call: impl FnMut(usize) -> u32 + 'static) -> [Side; 2] {
        [
            Box::new(|i| {
                black_box(i);
                DONE
            }),
            Box::new(move |i| call(black_box(i))),
        ]
    }

    fn announces(inputs: &'static Inputs) -> Vec<Announce<'static>> {
        let read = |frame: &'static Vec<u8>| crate_read_frame(frame).expect("the frame is good");
        inputs.frames.iter().map(read).collect()
    }

    pub const NONE: &str = "no check";

    /// What is made ready alone, and with the call; none for the check, which the crate has not.
    pub fn sides(row: &Row) -> Option<[Side; 2]> {
        let inputs = row.inputs;
        let sides = match row.call {
            Call::Decide => {
                let own = own();
                on_copy(inputs, move |_, book| {
                    black_box(&crate_decide(book, &own));
                    DONE
                })
            }
            Call::Register => on_copy(inputs, |i, book| {
                let yes = crate_register(book, inputs.ports[i] as usize - 1, &inputs.frames[i]);
                !yes as u32
            }),
            Call::Age => on_copy(inputs, |_, book| {
                crate_age(book, inputs.step);
                DONE
            }),
            Call::Soundness => return None,
            Call::Read => {
                alone(|i| black_box(&crate_read_frame(&inputs.frames[i])).is_none() as u32)
            }
            Call::Write => {
                let announces = announces(inputs);
                let mut buffer = [0; 256];
                alone(move |i| {
                    let written = crate_write_announce(&announces[i], black_box(&mut buffer));
                    (written == 0) as u32
                })
            }
        };
        Some(sides)
    }

    /// The crate does on the inputs of a row what the proved call does, as far as both tell it: the states, the messages that are
    /// held, the bytes that are written.
    pub fn agree(row: &Row) -> Result<(), String> {
        let inputs = row.inputs;
        let mut told = [0; DECISION_WORDS];
        let mut lists = books(inputs).into_iter();
        let mut announces = announces(inputs).into_iter();
        for i in 0..inputs.frames.len() {
            let mut store = inputs.books.get(i).cloned().unwrap_or_default();
            let list = lists.next();
            let announce = announces.next().expect("there is one for each frame");
            let same = match (row.call, list) {
                (Call::Soundness, _) => true,
                (Call::Decide, Some(mut list)) => {
                    proved::decide(&mut store, &LAST, &mut told);
                    let states = crate_decide(&mut list, &own()).numbers();
                    let ours = told[4..].chunks(STATE_WORDS).map(|state| state[0]);
                    ours.eq(states) && held(&store).1 == list.held() as u64
                }
                (Call::Register, Some(mut list)) => {
                    proved::register(&mut store, inputs.ports[i], &inputs.frames[i], &mut told);
                    crate_register(&mut list, inputs.ports[i] as usize - 1, &inputs.frames[i])
                        && held(&store).1 == list.held() as u64
                }
                (Call::Age, Some(mut list)) => {
                    proved::age(&mut store, inputs.step, &mut told);
                    crate_age(&mut list, inputs.step);
                    held(&store).1 == list.held() as u64
                }
                _ => {
                    let (mut left, mut right) = ([7; 256], [7; 256]);
                    let (words, tlvs) = (&inputs.announces[i], &inputs.tlvs[i]);
                    proved::write_announce(words, tlvs, &mut left);
                    crate_write_announce(&announce, &mut right);
                    left == right
                }
            };
            if !same {
                return Err(format!("the crate's {} differs on input {i}", row.name()));
            }
        }
        Ok(())
    }
}
