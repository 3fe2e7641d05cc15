//! A decoder's loop over a safe wrapper: the same model, arrivals and output as examples/c/decoder.c.

/// What include/cuttingvale.h declares; nothing else here is `unsafe` but the calls in `Engine`.
mod c {
    pub const TABLE_WORDS: usize = 33549;
    pub const STATE_WORDS: usize = 12341;
    pub const VERSION_20: u32 = 20;
    pub const NOT_LISTED: u32 = 6;
    pub const CONSUMED: u32 = 1;
    pub const SENT: u32 = 2;

    #[repr(C)]
    #[derive(Clone, Copy)]
    pub struct Tuple {
        pub length: u32,
        pub values: [u32; 4],
    }

    #[repr(C)]
    #[derive(Clone, Copy)]
    pub struct Name {
        pub pool: u32,
        pub instance: u32,
        pub element: u32,
        pub phase: u32,
        pub branch: u32,
        pub given: Tuple,
    }

    #[repr(C)]
    #[derive(Clone, Copy, Default)]
    pub struct Record {
        pub made: u32,
        pub unfinished: u32,
        pub finished: u32,
    }

    #[repr(C)]
    pub struct Answer {
        pub number: u32,
        pub traffic: u32,
        pub name: u32,
        pub tuple: Tuple,
    }

    #[repr(C)]
    pub struct Listed {
        pub number: u32,
        pub name: Name,
    }

    #[repr(C)]
    pub struct Reading {
        pub number: u32,
        pub beside: usize,
    }

    /// A library with other layouts than these has no function of this name: the program does not link with it.
    #[used]
    static LAYOUTS: unsafe extern "C" fn() -> u32 = cv_abi_4;

    #[link(name = "cuttingvale", kind = "static")]
    extern "C" {
        fn cv_abi_4() -> u32;
        pub fn cv_read(text: *const u8, length: usize, table: *mut u32, table_words: usize) -> Reading;
        pub fn cv_fresh(table: *const u32, table_words: usize, version: u32, state: *mut u32, state_words: usize) -> u32;
        pub fn cv_post(table: *const u32, table_words: usize, state: *mut u32, state_words: usize, name: u32, values: Tuple) -> u32;
        pub fn cv_list(table: *const u32, table_words: usize, state: *const u32, state_words: usize, ordinal: usize) -> Listed;
        pub fn cv_figures(table: *const u32, table_words: usize, state: *const u32, state_words: usize, records: *mut Record, pools: usize) -> u32;
        pub fn cv_step(table: *const u32, table_words: usize, state: *mut u32, state_words: usize, records: *mut Record, pools: usize, name: Name) -> Answer;
    }
}

/// The number of document 01 that a call was refused with, and what stands beside it.
pub struct Refused(u32, usize);

impl std::fmt::Debug for Refused {
    fn fmt(&self, f: &mut std::fmt::Formatter) -> std::fmt::Result {
        write!(f, "refused with {}, {}", self.0, self.1)
    }
}

struct Message {
    name: u32,
    values: Vec<u32>,
}

enum Traffic {
    Nothing,
    Consumed(Message),
    Sent(Message),
}

/// A model, its state and the desk's records of it: the blocks are lent to each call, whole, and to one call at a time.
struct Engine {
    table: Vec<u32>,
    state: Vec<u32>,
    records: Vec<c::Record>,
}

fn accepted(number: u32) -> Result<(), Refused> {
    if number == 0 { Ok(()) } else { Err(Refused(number, 0)) }
}

impl Engine {
    fn read(text: &str) -> Result<Engine, Refused> {
        let mut e = Engine { table: vec![0; c::TABLE_WORDS], state: vec![0; c::STATE_WORDS], records: Vec::new() };
        let r = unsafe { c::cv_read(text.as_ptr(), text.len(), e.table.as_mut_ptr(), e.table.len()) };
        if r.number != 0 {
            return Err(Refused(r.number, r.beside));
        }
        accepted(unsafe { c::cv_fresh(e.table.as_ptr(), e.table.len(), c::VERSION_20, e.state.as_mut_ptr(), e.state.len()) })?;
        // The first word of a table is its number of pools.
        e.records = vec![c::Record::default(); e.table[0] as usize];
        accepted(unsafe { c::cv_figures(e.table.as_ptr(), e.table.len(), e.state.as_ptr(), e.state.len(), e.records.as_mut_ptr(), e.records.len()) })?;
        Ok(e)
    }

    /// The desk's record of a pool, in the text's order.
    fn figures(&self, pool: usize) -> c::Record {
        self.records[pool]
    }

    /// More than four values are refused with 19, as the engine does.
    fn post(&mut self, name: u32, values: &[u32]) -> Result<(), Refused> {
        let mut tuple = c::Tuple { length: values.len().min(u32::MAX as usize) as u32, values: [0; 4] };
        for (place, value) in tuple.values.iter_mut().zip(values) {
            *place = *value;
        }
        accepted(unsafe { c::cv_post(self.table.as_ptr(), self.table.len(), self.state.as_mut_ptr(), self.state.len(), name, tuple) })
    }

    /// The accepted step with an ordinal, if there is one.
    fn list(&self, ordinal: usize) -> Result<Option<c::Name>, Refused> {
        let l = unsafe { c::cv_list(self.table.as_ptr(), self.table.len(), self.state.as_ptr(), self.state.len(), ordinal) };
        if l.number == c::NOT_LISTED {
            return Ok(None);
        }
        accepted(l.number).map(|()| Some(l.name))
    }

    fn step(&mut self, name: c::Name) -> Result<Traffic, Refused> {
        let a = unsafe { c::cv_step(self.table.as_ptr(), self.table.len(), self.state.as_mut_ptr(), self.state.len(), self.records.as_mut_ptr(), self.records.len(), name) };
        accepted(a.number)?;
        let message = Message { name: a.name, values: a.tuple.values.iter().take(a.tuple.length as usize).copied().collect() };
        Ok(match a.traffic {
            c::CONSUMED => Traffic::Consumed(message),
            c::SENT => Traffic::Sent(message),
            _ => Traffic::Nothing,
        })
    }
}

const MODEL: &str = "miPool(1,startRcv(0:<?d0,?d1>,1)|taskSnd(1,1,a,true,{d2:=d1+40},1:<d0,d2>,2)|interRcv(2,2:<d0,?d3>,3)|\
                     xorSplit(3,{(4,d3=1),(5,default)})|interSnd(4,3:<d0,d2>,6)|interSnd(5,4:<d0>,7)|xorJoin({6,7},8)|end(8),4)";

fn shown(name: u32, values: &[u32]) -> String {
    let joined: Vec<String> = values.iter().map(u32::to_string).collect();
    format!("{}:{}", name, joined.join(","))
}

/// Posts what came in, then takes the first listed step until there is none.
fn decode(engine: &mut Engine, arrivals: &[(u32, &[u32])]) -> Result<(), Refused> {
    for (name, values) in arrivals {
        println!("arrived {}", shown(*name, values));
        engine.post(*name, values)?;
    }
    while let Some(name) = engine.list(0)? {
        let told = match engine.step(name)? {
            Traffic::Nothing => "no message".to_string(),
            Traffic::Consumed(m) => format!("consumed {}", shown(m.name, &m.values)),
            Traffic::Sent(m) => format!("sent {}", shown(m.name, &m.values)),
        };
        println!("instance {}, element {}: {}", name.instance, name.element, told);
    }
    let desk = engine.figures(0);
    println!("desk: {} made, {} unfinished, {} finished", desk.made, desk.unfinished, desk.finished);
    Ok(())
}

pub fn main() -> Result<(), Refused> {
    let mut engine = Engine::read(MODEL)?;
    decode(&mut engine, &[(0, &[1234567, 2]), (0, &[1234567, 2])])?;
    decode(&mut engine, &[(2, &[1234567, 1]), (2, &[1234567, 0])])
}
