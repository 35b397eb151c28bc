//! A call with all that it is given, and all that can be seen of it afterwards. Both sides speak in
//! the header's structs.

use linked::{
    Answered, Event, Listed, Listing, Module, Question, Ran, Receiver, Reply, Station, Stepped,
    Written,
};

/// The writers of one record.
#[derive(Clone, Copy, Debug, PartialEq, Eq)]
pub enum Kind {
    /// 42H.
    Analog,
    /// 44H.
    Alarm,
    /// 47H.
    Parameters,
    /// 92H.
    Limits,
    /// 93H.
    Serial,
    /// 96H.
    Version,
}

/// The writers of the whole group.
#[derive(Clone, Copy, Debug, PartialEq, Eq)]
pub enum Group {
    /// 42H.
    Analog,
    /// 44H.
    Alarm,
}

/// One call.
#[derive(Clone, Debug, PartialEq, Eq)]
#[allow(missing_docs)]
pub enum Case {
    Judge {
        stretch: Vec<u8>,
    },
    ReceiverNew,
    Step {
        receiver: Receiver,
        store: Vec<u8>,
        byte: u8,
    },
    Run {
        receiver: Receiver,
        store: Vec<u8>,
        piece: Vec<u8>,
    },
    WriteFrame {
        header: [u8; 4],
        info: Vec<u8>,
        out: Vec<u8>,
    },
    WriteRecord {
        kind: Kind,
        module: Module,
        flag: u8,
        out: Vec<u8>,
    },
    WriteGroup {
        group: Group,
        table: Vec<Module>,
        flag: u8,
        out: Vec<u8>,
    },
    ModuleNew {
        adr: u8,
    },
    Table {
        table: Vec<Module>,
    },
    Record {
        table: Vec<Module>,
        at: usize,
        other: Module,
    },
    Replace {
        table: Vec<Module>,
        at: usize,
        module: Module,
    },
    SwitchOff {
        table: Vec<Module>,
        at: usize,
    },
    Answer {
        table: Vec<Module>,
        station: Station,
        stretch: Vec<u8>,
        out: Vec<u8>,
    },
    ReadReply {
        table: Vec<Module>,
        question: Question,
        stretch: Vec<u8>,
    },
    ListingNew,
    List {
        listing: Listing,
        store: Vec<u8>,
        piece: Vec<u8>,
        out: Vec<u8>,
    },
    ListClose {
        listing: Listing,
        out: Vec<u8>,
    },
    TenthsCelsius {
        raw: i16,
    },
    Milliamps {
        current: i16,
    },
}

/// What a call returns.
#[derive(Clone, Debug, PartialEq, Eq)]
#[allow(missing_docs)]
pub enum Returned {
    Event(Event),
    Receiver(Receiver),
    Stepped(Stepped),
    Ran(Ran),
    Written(Written),
    Number(u8),
    Module(Module),
    Nothing,
    Answered(Answered),
    Reply(Reply),
    Listing(Listing),
    Listed(Listed),
    Meaning(i32),
}

/// What a call returns and leaves.
#[derive(Clone, Debug, PartialEq, Eq)]
pub struct Outcome {
    /// What it returns.
    pub returned: Returned,
    /// The whole lent store or buffer then; empty where none is lent.
    pub bytes: Vec<u8>,
    /// The whole lent store then, of a call that is lent a store and a buffer.
    pub store: Vec<u8>,
    /// The whole lent table then; empty where none is lent to be changed.
    pub table: Vec<Module>,
    /// Whether something beside what was lent was changed.
    pub strayed: bool,
}

impl Outcome {
    /// A call that is lent nothing to change.
    pub fn of(returned: Returned) -> Self {
        Outcome {
            returned,
            bytes: Vec::new(),
            store: Vec::new(),
            table: Vec::new(),
            strayed: false,
        }
    }
}

impl Case {
    /// The function called.
    pub fn function(&self) -> &'static str {
        match self {
            Case::Judge { .. } => "hanuzak_judge",
            Case::ReceiverNew => "hanuzak_receiver_new",
            Case::Step { .. } => "hanuzak_step",
            Case::Run { .. } => "hanuzak_run",
            Case::WriteFrame { .. } => "hanuzak_write_frame",
            Case::WriteRecord { kind, .. } => match kind {
                Kind::Analog => "hanuzak_write_analog",
                Kind::Alarm => "hanuzak_write_alarm",
                Kind::Parameters => "hanuzak_write_parameters",
                Kind::Limits => "hanuzak_write_limits",
                Kind::Serial => "hanuzak_write_serial",
                Kind::Version => "hanuzak_write_version",
            },
            Case::WriteGroup { group, .. } => match group {
                Group::Analog => "hanuzak_write_analog_group",
                Group::Alarm => "hanuzak_write_alarm_group",
            },
            Case::ModuleNew { .. } => "hanuzak_module_new",
            Case::Table { .. } => "hanuzak_table",
            Case::Record { .. } => "hanuzak_record",
            Case::Replace { .. } => "hanuzak_replace",
            Case::SwitchOff { .. } => "hanuzak_switch_off",
            Case::Answer { .. } => "hanuzak_answer",
            Case::ReadReply { .. } => "hanuzak_read_reply",
            Case::ListingNew => "hanuzak_listing_new",
            Case::List { .. } => "hanuzak_list",
            Case::ListClose { .. } => "hanuzak_list_close",
            Case::TenthsCelsius { .. } => "hanuzak_tenths_celsius",
            Case::Milliamps { .. } => "hanuzak_milliamps",
        }
    }
}
