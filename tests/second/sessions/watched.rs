//! The store of a session as it is compared: each call is asked of the desk library and of the
//! second store, and all words are read anew after it. The pools are small enough for that.

use super::reached::Reached;
use crate::desk::compared::Compared;
use crate::desk::course::Course;
use crate::desk::stores::SESSION;
use crate::session::{Band, Calls, LONGEST_LIST};
use crate::store::answers::*;
use crate::store::pools::MOST_PATH;

pub struct Watched<'a> {
    compared: &'a mut Compared,
    reached: &'a mut Reached,
    course: Course,
}

impl Watched<'_> {
    pub fn start<'a>(compared: &'a mut Compared, reached: &'a mut Reached) -> Watched<'a> {
        let course = Course::load(compared, SESSION, &[]);
        let Some(course) = course else {
            compared.wrong("no room for a load of nothing");
        };
        Watched {
            compared,
            reached,
            course,
        }
    }
}

impl Calls for Watched<'_> {
    fn insert(&mut self, key: u64, payload: u64) -> Inserted {
        self.compared.operation += 1;
        let answer = self.course.insert(self.compared, key, payload);
        match answer.number {
            DONE => self.reached.insert_done(answer.conflict, answer.tidying),
            NO_ROOM if self.course.rebuild_tried() => {
                self.reached.note("insert 8 for the whole tree")
            }
            NO_ROOM => self.reached.note("insert 8 for the two-key node"),
            number => self.reached.call("insert", number),
        }
        answer
    }

    fn delete(&mut self, key: u64) -> Changed {
        self.compared.operation += 1;
        let answer = self.course.delete(self.compared, key);
        self.reached.call("delete", answer.number);
        answer
    }

    fn lookup(&mut self, key: u64) -> Looked {
        self.compared.operation += 1;
        let answer = self.course.lookup(self.compared, key);
        self.reached.call("lookup", answer.number);
        if answer.visits == MOST_PATH as u64 {
            self.reached.call("lookup of 24 nodes", answer.number);
        }
        answer
    }

    fn band(&mut self, u: u64, v: u64) -> Band {
        self.compared.operation += 1;
        let (answer, listed) = self.course.band(self.compared, (u, v), LONGEST_LIST);
        match (answer.number, answer.more) {
            (DONE, 0) => self.reached.note("band 0, no more"),
            (DONE, _) => self.reached.note("band 0, more"),
            (number, _) => self.reached.call("band", number),
        }
        Band { answer, listed }
    }

    fn replace(&mut self, key: u64, payload: u64) -> Changed {
        self.compared.operation += 1;
        let answer = self.course.replace(self.compared, key, payload);
        self.reached.call("replace", answer.number);
        answer
    }
}
