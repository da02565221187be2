//! What a message is about to ask of the table as it stands: the fields of an opening, a closing, a Path or a PathTear
//! that is new, repeated, or at odds with what is there.

use crate::build::{Connection, Fields, C, D, NOTIFY, PATH, PATH_TEAR, R};
use crate::form;
use crate::nameless;
use crate::random::Random;
use crate::tables;
use crate::values::Values;
use second::table::{Call, Table};

#[derive(Clone, Copy, Debug, PartialEq, Eq, PartialOrd, Ord)]
pub enum Intent {
    OpenNew,
    OpenAgain,
    OpenShortUsed,
    OpenLongUsed,
    OpenCrossed,
    OpenElsewhere,
    OpenSwapped,
    OpenZeroInside,
    OpenAny,
    CloseIdle,
    CloseOpen,
    CloseLit,
    CloseCrossed,
    CloseElsewhere,
    CloseAny,
    PathNew,
    PathHeld,
    PathMoved,
    PathUnknown,
    PathStandalone,
    PathCrowded,
    PathBeside,
    PathAny,
    TearHeld,
    TearBeside,
    TearAny,
    // Without names, or about calls that came so (A6).
    NamelessNew,
    NamelessAgain,
    NamelessElsewhere,
    NamelessBeside,
    NamelessZeros,
    OpenMadeName,
    OpenNearlyMade,
    OpenLowId,
    OpenNumbers,
    OpenMadeAgain,
    CloseMade,
    HalfNamed,
}

use Intent::*;

/// What a stretch of a stream does most.
pub type Mode = &'static [(usize, Intent)];

pub const FILL: Mode = &[
    (70, OpenNew),
    (6, OpenAgain),
    (5, OpenShortUsed),
    (5, OpenLongUsed),
    (4, OpenCrossed),
    (4, OpenElsewhere),
    (2, OpenSwapped),
    (3, OpenZeroInside),
    (24, NamelessNew),
    (5, NamelessAgain),
    (4, NamelessElsewhere),
    (4, NamelessBeside),
    (4, NamelessZeros),
    (7, OpenMadeName),
    (8, OpenNearlyMade),
    (5, OpenLowId),
    (3, OpenNumbers),
    (2, OpenMadeAgain),
    (2, CloseMade),
    (2, HalfNamed),
    (4, CloseIdle),
    (8, PathNew),
    (4, PathStandalone),
    (2, TearHeld),
];

/// Hardly anything but new calls, so that the slots are used up soon.
pub const FILL_SOON: Mode = &[
    (90, OpenNew),
    (2, OpenAgain),
    (2, OpenCrossed),
    (1, CloseIdle),
    (4, PathNew),
    (1, PathStandalone),
];

/// The same, nearly all without names.
pub const FILL_NAMELESS: Mode = &[
    (85, NamelessNew),
    (5, OpenNew),
    (6, NamelessAgain),
    (3, NamelessBeside),
    (3, OpenMadeName),
    (2, OpenLowId),
    (1, CloseMade),
    (4, PathNew),
];

/// A pair with as many calls as it can have: made calls come and go, and the others stay.
pub const CROWD: Mode = &[
    (6, NamelessNew),
    (10, NamelessAgain),
    (2, OpenMadeAgain),
    (4, CloseMade),
    (1, PathNew),
];

pub const CHURN: Mode = &[
    (14, OpenNew),
    (8, OpenAgain),
    (6, OpenShortUsed),
    (6, OpenLongUsed),
    (5, OpenCrossed),
    (4, OpenElsewhere),
    (4, OpenSwapped),
    (4, OpenZeroInside),
    (4, OpenAny),
    (10, NamelessNew),
    (6, NamelessAgain),
    (4, NamelessElsewhere),
    (4, NamelessBeside),
    (4, NamelessZeros),
    (4, OpenMadeName),
    (8, OpenNearlyMade),
    (3, OpenLowId),
    (4, OpenNumbers),
    (4, OpenMadeAgain),
    (6, CloseMade),
    (4, HalfNamed),
    (8, CloseIdle),
    (3, CloseOpen),
    (5, CloseLit),
    (4, CloseCrossed),
    (4, CloseElsewhere),
    (4, CloseAny),
    (12, PathNew),
    (5, PathHeld),
    (5, PathMoved),
    (4, PathUnknown),
    (4, PathStandalone),
    (3, PathCrowded),
    (4, PathBeside),
    (4, PathAny),
    (8, TearHeld),
    (4, TearBeside),
    (4, TearAny),
];

pub const CONNECT: Mode = &[
    (6, OpenNew),
    (2, OpenAgain),
    (3, NamelessNew),
    (3, NamelessAgain),
    (3, CloseMade),
    (5, CloseLit),
    (30, PathNew),
    (8, PathHeld),
    (8, PathMoved),
    (4, PathUnknown),
    (12, PathStandalone),
    (16, PathCrowded),
    (4, PathBeside),
    (4, PathAny),
    (12, TearHeld),
    (4, TearBeside),
    (4, TearAny),
];

pub const DRAIN: Mode = &[
    (4, OpenNew),
    (4, OpenAgain),
    (4, NamelessNew),
    (4, NamelessAgain),
    (4, CloseMade),
    (30, CloseIdle),
    (12, CloseOpen),
    (4, CloseCrossed),
    (4, CloseElsewhere),
    (4, CloseAny),
    (3, PathNew),
    (30, TearHeld),
    (4, TearAny),
];

pub const MODES: [(usize, Mode); 4] = [(4, FILL), (4, CHURN), (3, CONNECT), (1, DRAIN)];

/// The message's type and fields for this intent. Where the table has nothing of the kind, any fields do.
pub fn fields(intent: Intent, values: &Values, table: &Table, random: &mut Random) -> (u8, Fields) {
    let any = any_fields(values, random);
    match intent {
        NamelessNew | NamelessAgain | NamelessElsewhere | NamelessBeside | NamelessZeros | HalfNamed => {
            (NOTIFY, nameless::asking(intent, any, values, table, random))
        }
        OpenMadeName | OpenNearlyMade | OpenLowId | OpenNumbers | OpenMadeAgain | CloseMade => {
            let mut fields = nameless::asking(intent, any, values, table, random);
            pad(&mut fields.name, random);
            (NOTIFY, fields)
        }
        CloseIdle | CloseOpen | CloseLit | CloseCrossed | CloseElsewhere | CloseAny => {
            let mut fields = closing(intent, any, table, random);
            fields.status |= D;
            pad(&mut fields.name, random);
            (NOTIFY, fields)
        }
        TearHeld | TearBeside | TearAny => (PATH_TEAR, tearing(intent, any, table, random)),
        PathNew | PathHeld | PathMoved | PathUnknown | PathStandalone | PathCrowded | PathBeside | PathAny => {
            (PATH, connecting(intent, any, values, table, random))
        }
        _ => {
            let mut fields = opening(intent, any, values, table, random);
            pad(&mut fields.name, random);
            (NOTIFY, fields)
        }
    }
}

/// Padding that is counted in Name Length (A1), two times out of five: up to the next word, to the largest name, or any.
/// What is empty stays so.
fn pad(name: &mut Vec<u8>, random: &mut Random) {
    if random.chance(3, 5) || name.len() >= 32 || name.is_empty() {
        return;
    }
    let (more, any) = (name.len() + 1, random.between(name.len() + 1, 32));
    let size = *random.pick(&[more, more.next_multiple_of(4), 32, any, any, any]);
    name.resize(size, 0);
}

/// Fields drawn from the stream's few; a MESSAGE_ID's numbers half the time from all there are.
fn any_fields(values: &Values, random: &mut Random) -> Fields {
    let numbers = (random.word() >> 8, random.word());
    let few = *random.pick(&values.requests);
    let (epoch, identifier) = *random.pick(&[numbers, few]);
    Fields {
        endpoint: *random.pick(&values.endpoints),
        call: *random.pick(&values.ids),
        tunnel: *random.pick(&values.tunnels),
        extended: *random.pick(&values.extended),
        sender: *random.pick(&values.senders),
        lsp: *random.pick(&values.lsps),
        name: random.pick(&values.names).clone(),
        epoch,
        identifier,
        status: R | C,
        ..Fields::default()
    }
}

fn opening(intent: Intent, mut fields: Fields, values: &Values, table: &Table, random: &mut Random) -> Fields {
    if intent == OpenNew {
        return unused(fields, values, table, random);
    }
    let Some(call) = tables::some_call(table, random) else {
        return fields;
    };
    match intent {
        OpenAgain => take_ids(&mut fields, &call),
        OpenShortUsed => fields.call = call.id as u16,
        OpenLongUsed => fields.name = tables::name(&call).to_vec(),
        OpenCrossed => cross_ids(&mut fields, &call, table, random),
        OpenSwapped => return swapped(fields, table, random),
        OpenZeroInside => zero_inside(&mut fields, &call, random),
        OpenElsewhere => {
            take_ids(&mut fields, &call);
            return fields;
        }
        _ => return fields,
    }
    take_pair(&mut fields, &call);
    fields
}

/// The IDs of an open call with end point and sender swapped; of one whose end point is listed, if there is one.
fn swapped(mut fields: Fields, table: &Table, random: &mut Random) -> Fields {
    let listed = |address| tables::listed(table).iter().any(|one| one.address == address);
    let calls = tables::calls(table).filter(|call| listed(call.endpoint));
    let calls: Vec<&Call> = calls.collect();
    if !calls.is_empty() {
        let call = *random.pick(&calls);
        take_ids(&mut fields, call);
        (fields.endpoint, fields.sender) = (call.sender, call.endpoint);
    }
    fields
}

/// A name that differs from the call's in a zero byte that is not at its end, under the call's short ID or another.
fn zero_inside(fields: &mut Fields, call: &Call, random: &mut Random) {
    let mut name = tables::name(call).to_vec();
    match name.iter().position(|&byte| byte == 0) {
        // What stands before the zero, if anything does, or what stands behind it.
        Some(0) => drop(name.remove(0)),
        Some(at) if random.chance(1, 2) => name.truncate(at),
        _ if name.len() > 30 => name[15] = 0,
        _ if random.chance(1, 2) => name.insert(0, 0),
        _ => name.extend([0, b'b']),
    }
    fields.name = name;
    if random.chance(1, 2) {
        fields.call = call.id as u16;
    }
}

/// IDs that the pair does not use, if a few draws find them.
fn unused(mut fields: Fields, values: &Values, table: &Table, random: &mut Random) -> Fields {
    for _ in 0..24 {
        let pair = (fields.endpoint, fields.sender);
        if tables::in_use(table, pair, fields.call, &fields.name) == (false, false) {
            break;
        }
        fields.endpoint = *random.pick(&values.endpoints);
        fields.call = *random.pick(&values.ids);
        fields.name.clone_from(random.pick(&values.names));
    }
    fields
}

fn closing(intent: Intent, mut fields: Fields, table: &Table, random: &mut Random) -> Fields {
    let is_lit = |call: &Call| call.places.iter().any(tables::is_taken);
    let (lit, idle): (Vec<Call>, Vec<Call>) = tables::calls(table).partition(|call| is_lit(call));
    let call = match intent {
        CloseIdle if !idle.is_empty() => Some(*random.pick(&idle)),
        CloseLit if !lit.is_empty() => Some(*random.pick(&lit)),
        CloseAny => None,
        _ => tables::some_call(table, random),
    };
    let Some(call) = call else {
        return fields;
    };
    take_ids(&mut fields, &call);
    if intent != CloseElsewhere {
        take_pair(&mut fields, &call);
    }
    if intent == CloseCrossed {
        cross_ids(&mut fields, &call, table, random);
    }
    fields
}

fn connecting(intent: Intent, mut fields: Fields, values: &Values, table: &Table, random: &mut Random) -> Fields {
    let call = tables::some_call(table, random);
    match (intent, call) {
        (PathHeld | PathMoved, _) => {
            let call = fields.call;
            fields = holding(fields, table, random);
            if intent == PathMoved {
                fields.call = if random.chance(1, 4) { 0 } else { call };
            }
        }
        (PathBeside, _) => fields = beside(fields, table, random),
        (PathStandalone, _) => fields.call = 0,
        (PathCrowded, _) => crowd(&mut fields, values, table, random),
        (PathNew, Some(call)) => {
            take_pair(&mut fields, &call);
            fields.call = call.id as u16;
        }
        (PathUnknown, Some(call)) => take_pair(&mut fields, &call),
        _ if random.chance(1, 4) => fields.call = 0,
        _ => {}
    }
    fields
}

/// Removes a connection under its own Call ID, another or none: any will do.
fn tearing(intent: Intent, mut fields: Fields, table: &Table, random: &mut Random) -> Fields {
    let call = *random.pick(&[0, fields.call, fields.call]);
    match intent {
        TearHeld => fields = holding(fields, table, random),
        TearBeside => fields = beside(fields, table, random),
        _ => {}
    }
    if random.chance(1, 2) {
        fields.call = call;
    }
    fields
}

/// A held connection, under its own Call ID.
fn holding(mut fields: Fields, table: &Table, random: &mut Random) -> Fields {
    let Some(held) = tables::some_held(table, random) else {
        return fields;
    };
    take_connection(&mut fields, held.connection);
    fields.call = held.call;
    fields
}

/// A held connection but for one of its five fields.
fn beside(fields: Fields, table: &Table, random: &mut Random) -> Fields {
    let mut held = holding(fields.clone(), table, random);
    match random.below(5) {
        0 => held.endpoint = fields.endpoint,
        1 => held.tunnel = fields.tunnel,
        2 => held.extended = fields.extended,
        3 => held.sender = fields.sender,
        _ => held.lsp = fields.lsp,
    }
    held
}

/// One more connection where there are most already: under the fullest call, or with a customer.
fn crowd(fields: &mut Fields, values: &Values, table: &Table, random: &mut Random) {
    fields.lsp = random.half();
    let places = |call: &&Call| call.places.iter().filter(|place| tables::is_taken(place)).count();
    // Half the time of those in slots that form 1 does not have, if there are any.
    let from = *random.pick(&[0, form::total(1)]);
    let used = tables::used(table).into_iter().filter(|&slot| slot >= from);
    match used.map(|slot| &table.calls[slot]).max_by_key(places) {
        Some(call) if random.chance(1, 2) => {
            take_pair(fields, call);
            fields.call = call.id as u16;
        }
        _ => {
            fields.call = 0;
            fields.sender = values.senders[0];
        }
    }
}

pub fn take_pair(fields: &mut Fields, call: &Call) {
    fields.endpoint = call.endpoint;
    fields.sender = call.sender;
}

pub fn take_ids(fields: &mut Fields, call: &Call) {
    fields.call = call.id as u16;
    fields.name = tables::name(call).to_vec();
}

/// The short ID of one call with the name of another; of the same pair if there is one.
fn cross_ids(fields: &mut Fields, call: &Call, table: &Table, random: &mut Random) {
    let pair = |other: &&Call| other.endpoint == call.endpoint && other.sender == call.sender;
    let of_pair: Vec<&Call> = tables::calls(table).filter(pair).collect();
    fields.call = of_pair[random.below(of_pair.len())].id as u16;
    fields.name = tables::name(of_pair[random.below(of_pair.len())]).to_vec();
}

fn take_connection(fields: &mut Fields, connection: Connection) {
    fields.endpoint = connection.endpoint;
    fields.tunnel = connection.tunnel;
    fields.extended = connection.extended;
    fields.sender = connection.sender;
    fields.lsp = connection.lsp;
}
