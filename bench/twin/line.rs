//! The queue, a line in a lent buffer.
use super::word::{Notification, Row};

pub struct Queue<'a> {
    buffer: &'a mut [Row],
    first: usize,
    length: usize,
    posts: u64,
}

impl<'a> Queue<'a> {
    pub fn new(buffer: &'a mut [Row]) -> Queue<'a> {
        Queue { buffer, first: 0, length: 0, posts: 0 }
    }

    pub fn len(&self) -> usize {
        self.length
    }

    /// How many it has room for, whether some wait or not.
    pub fn room(&self) -> usize {
        self.buffer.len()
    }

    pub fn posts(&self) -> u64 {
        self.posts
    }

    /// Drops it where the buffer is full.
    pub fn push(&mut self, row: Row) {
        self.posts = self.posts.wrapping_add(1);
        if self.length < self.buffer.len() {
            let at = self.wrap(self.first + self.length);
            self.buffer[at] = row;
            self.length += 1;
        }
    }

    pub fn pop(&mut self) -> Option<Row> {
        if self.length == 0 {
            return None;
        }
        let row = self.buffer[self.first];
        self.first = self.wrap(self.first + 1);
        self.length -= 1;
        Some(row)
    }

    fn wrap(&self, at: usize) -> usize {
        if at >= self.buffer.len() { at - self.buffer.len() } else { at }
    }

    pub fn post(&mut self, notification: Notification) {
        self.push(Row::from(notification));
    }

    pub fn take(&mut self) -> Option<Notification> {
        self.pop()?.notification()
    }

    /// A row that is no notification's is passed over.
    pub fn post_all(&mut self, rows: &[Row]) {
        for row in rows {
            if let Some(notification) = row.notification() {
                self.post(notification);
            }
        }
    }
}
