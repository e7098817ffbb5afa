//! The calls on submissions.

/// The calls on submissions, which a core, a job that runs and the outside actor have alike.
macro_rules! submissions {
    ($($entered:tt)+) => {
        /// Submits a job to a queue of a core. The job itself may be inside before this call is over.
        ///
        /// # Errors
        ///
        /// `NoQueue` above 255, `UnknownCore`, `JournalFull`, `Closed`, `Full`, `Spent`, each with the job.
        #[inline]
        pub fn submit(&mut self, to: u32, queue: u32, job: J) -> Result<Ticket, (Error, J)> {
            self.$($entered)+.submit(to, queue, job)
        }

        /// Submits an order to make a queue with these shares. Each order that is no job has an answer as its outcome.
        ///
        /// # Errors
        ///
        /// `BadShares`, then as `submit`.
        pub fn create(&mut self, to: u32, shares: u32) -> Result<Ticket, Error> {
            self.$($entered)+.order(to, |seat| seat.create(to, shares))
        }

        /// Submits an order to give a queue these shares.
        ///
        /// # Errors
        ///
        /// `BadShares`, then as `submit`.
        pub fn set_shares(&mut self, to: u32, queue: u32, shares: u32) -> Result<Ticket, Error> {
            self.$($entered)+.order(to, |seat| seat.set_shares(to, queue, shares))
        }

        /// Submits an order to close a queue.
        ///
        /// # Errors
        ///
        /// As `submit`.
        pub fn close_queue(&mut self, to: u32, queue: u32, mode: $crate::Mode) -> Result<Ticket, Error> {
            self.$($entered)+.order(to, |seat| seat.close_queue(to, queue, mode))
        }

        /// Submits an order to close a core.
        ///
        /// # Errors
        ///
        /// As `submit`.
        pub fn close_core(&mut self, to: u32, mode: $crate::Mode) -> Result<Ticket, Error> {
            self.$($entered)+.order(to, |seat| seat.close_core(to, mode))
        }

        /// Submits an order to wake a job, by its name, to the core where it is.
        ///
        /// # Errors
        ///
        /// As `submit`.
        pub fn wake(&mut self, job: Name) -> Result<Ticket, Error> {
            self.$($entered)+.order(job.to, |seat| seat.wake(job))
        }

        /// Collects all outcomes that the links show. How many there were.
        ///
        /// # Errors
        ///
        /// `JournalFull`.
        pub fn collect(&mut self) -> Result<u64, Error> {
            self.$($entered)+.collect()
        }

        /// The same, and the names of what came go behind these, in the order in which they came: so who has many tickets redeems these alone. The
        /// name of a submission that was let go is among them.
        ///
        /// # Errors
        ///
        /// `JournalFull`.
        pub fn collect_names(&mut self, names: &mut Vec<Name>) -> Result<u64, Error> {
            self.$($entered)+.collect_names(names)
        }

        /// The outcome of a submission that was collected. It is gone from then on.
        ///
        /// # Errors
        ///
        /// `JournalFull`, `Unknown` for the ticket of another actor, `Gone`, `Pending`.
        #[inline]
        pub fn redeem(&mut self, ticket: &Ticket) -> Result<Outcome<J>, Error> {
            self.$($entered)+.redeem(ticket)
        }

        /// Nobody will ask for the outcome of a submission. A job that comes back is dropped. If the journal is too full for the note, `collect`
        /// makes it later.
        ///
        /// # Errors
        ///
        /// `Unknown`, `Gone`.
        pub fn detach(&mut self, ticket: Ticket) -> Result<(), Error> {
            self.$($entered)+.detach(ticket).map(drop)
        }

        /// Puts the notes that the journal keeps behind these bytes, in the [`Form`] of the house, and forgets them. The journal keeps none of them
        /// then, and all its notes are free. All parts of an actor are its notes in the text of the journals, or in the journals as bytes.
        ///
        /// [`Form`]: super::Form
        ///
        /// # Errors
        ///
        /// `NoMemory`. Then nothing changes.
        pub fn pass_on(&mut self, text: &mut Vec<u8>) -> Result<(), Error> {
            self.$($entered)+.seat.pass_on(text)
        }

        /// How many notes the journal keeps, and how many more it has room for. One of these is for the settling of a job that runs.
        ///
        /// # Errors
        ///
        /// `Ended`.
        pub fn note_counts(&mut self) -> Result<crate::linked::NoteCounts, Error> {
            self.$($entered)+.seat.counts()
        }

        /// Forgets the notes that the journal keeps. How many they were. All its notes are free then, and the house can't be judged.
        ///
        /// # Errors
        ///
        /// `Ended`.
        pub fn forget(&mut self) -> Result<u64, Error> {
            self.$($entered)+.seat.forget()
        }

        /// Puts the text of so many of the newest notes behind this text: of those that the journal keeps, and with [`Journal::Last`] of those that stayed
        /// of the ones before. How many notes these are. All of them stay.
        ///
        /// # Errors
        ///
        /// `NoMemory`, `Ended`. Then nothing changes.
        ///
        /// [`Journal::Last`]: super::Journal::Last
        pub fn newest(&mut self, most: u64, text: &mut Vec<u8>) -> Result<u64, Error> {
            self.$($entered)+.seat.newest(most, text)
        }

        /// From now on notes go to `takes`, as by `pass_on`, before the journal is full: about a thousand at a time, and 4096 at most. No call copies more
        /// than 128 as text or 256 in bytes, which is some 20 µs; one in ten of these calls is that of `takes`. A journal that has room for fewer than
        /// 2048, or is nearly full by now, goes out when it is full. So `JournalFull` comes only if the journal has room for fewer notes than one call may
        /// need. What is kept at the end goes out by `pass_on`. If `takes` panics, the bytes go first to who takes notes the next time, or out by `pass_on`.
        pub fn keep_notes_by(&mut self, takes: impl FnMut(&[u8]) + Send + 'static) {
            self.$($entered)+.seat.keep_notes_by(Box::new(takes));
        }
    };
}
pub(super) use submissions;
