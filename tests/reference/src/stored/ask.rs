//! One request of each call, with the fields that it looks at.

use crate::protocol::{
    Request, CLOSE, JUDGE, READ_DIMACS, REASON, SEARCH, WRITE_CLAUSES, WRITE_DIMACS,
};

pub fn read(file: &[u8]) -> Request {
    Request::read(file.to_vec())
}

fn ask(call: u8, file: &[u8]) -> Request {
    Request { call, ..read(file) }
}

pub fn judge(file: &[u8], values: &[i8]) -> Request {
    Request {
        assignment: values.to_vec(),
        ..ask(JUDGE, file)
    }
}

pub fn close(file: &[u8], values: &[i8], room: u16) -> Request {
    Request {
        assignment: values.to_vec(),
        room,
        ..ask(CLOSE, file)
    }
}

pub fn reason(file: &[u8], values: &[i8], atom: u16, room: u16) -> Request {
    Request {
        assignment: values.to_vec(),
        atom,
        room,
        ..ask(REASON, file)
    }
}

pub fn search(file: &[u8], budget: u32, room: u16) -> Request {
    Request {
        budget,
        room,
        ..ask(SEARCH, file)
    }
}

pub fn write_clauses(file: &[u8], room: u16) -> Request {
    Request {
        room,
        ..ask(WRITE_CLAUSES, file)
    }
}

pub fn write_dimacs(file: &[u8], room: u16) -> Request {
    Request {
        room,
        ..ask(WRITE_DIMACS, file)
    }
}

pub fn read_dimacs(file: &[u8], text: &[u8], room: u16) -> Request {
    let mut request = Request {
        room,
        ..ask(READ_DIMACS, file)
    };
    request.set_text(text);
    request
}
