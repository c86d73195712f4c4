//! A call made through the safe wrapper, its answer as the peer gives its own.

use crate::arguments;
use crate::loan::Loan;
use peer::answers::{EventAnswer, FoundName, MendAnswer, Reply};
use peer::call::Call;
use peer::digest::digest;
use peer::generate::chance::Chance;
use peer::{ByteOrder, Context, Header, Mended, NameKind, Named, Refusal, Summary};

/// The length of a text, or what a writing call gives.
type Written = Result<usize, lepsaino::Refusal>;

/// None for the one kind of call that the library does not have.
pub fn answer(chance: &mut Chance, loan: &mut Loan, call: &Call) -> Option<Reply> {
    let buffer = loan.buffer.bytes();
    let names = loan.names.bytes();
    Some(match call {
        Call::Check => checked(lepsaino::check(buffer)),
        Call::Event { position } => {
            let given = lepsaino::event(buffer, *position).map_err(refusal);
            Reply::Event(given.map(|given| EventAnswer {
                event_name: given.event_name.map(|name| Some(found(loan, name))),
                ..event(loan, &given)
            }))
        }
        Call::EventWithNames { position } => {
            let given = lepsaino::event_with_names(buffer, names, *position).map_err(refusal);
            Reply::Event(given.map(|given| event(loan, &given)))
        }
        Call::FindName { pointer } => {
            let given = lepsaino::find_name(buffer, *pointer).map_err(refusal);
            Reply::FindName(given.map(|given| given.map(|name| found(loan, name))))
        }
        Call::FindNameWithNames { pointer } => {
            let given = lepsaino::find_name_with_names(buffer, names, *pointer).map_err(refusal);
            Reply::FindName(given.map(|given| given.map(|name| found(loan, name))))
        }
        Call::Line {
            reading, position, ..
        } => {
            let reading = arguments::reading(reading);
            let length = lepsaino::line(buffer, reading, *position, loan.out.bytes_mut());
            text(loan, length)
        }
        Call::LineWithNames {
            reading, position, ..
        } => {
            let (reading, out) = (arguments::reading(reading), loan.out.bytes_mut());
            let length = lepsaino::line_with_names(buffer, names, reading, *position, out);
            text(loan, length)
        }
        Call::Listing { reading, .. } => {
            let reading = arguments::reading(reading);
            let length = lepsaino::listing(buffer, reading, loan.out.bytes_mut());
            text(loan, length)
        }
        Call::ListingWithNames { reading, .. } => {
            let (reading, out) = (arguments::reading(reading), loan.out.bytes_mut());
            let length = lepsaino::listing_with_names(buffer, names, reading, out);
            text(loan, length)
        }
        Call::Mend { .. } => {
            let given = lepsaino::mend(buffer, loan.out.bytes_mut());
            mended(loan, given)
        }
        Call::WriteName(naming) => {
            let record = lepsaino::Naming {
                thread: naming.named == Named::Thread,
                number: naming.number,
                name: loan.name.bytes(),
            };
            let done = lepsaino::write_name(loan.names.bytes_mut(), naming.offset, record);
            Reply::Written {
                result: done.map_err(refusal),
                digest: digest(loan.names.bytes()),
            }
        }
        _ => {
            let done = write(chance, loan, call)?;
            Reply::Written {
                result: done.map_err(refusal),
                digest: digest(loan.buffer.bytes()),
            }
        }
    })
}

fn write(chance: &mut Chance, loan: &mut Loan, call: &Call) -> Option<Written> {
    let buffer = loan.buffer.bytes_mut();
    Some(match call {
        Call::Format(plan) => lepsaino::format(buffer, arguments::format(chance, plan)),
        Call::Record(words) => lepsaino::record(buffer, arguments::slot(words)),
        Call::Register(registration) => {
            lepsaino::register(buffer, arguments::object(registration), loan.name.bytes())
        }
        Call::Remove { pointer } => lepsaino::remove(buffer, *pointer),
        _ => return None,
    })
}

/// The check gives the same whether the dump came whole or in pieces.
pub fn checked(given: Result<lepsaino::Checked, lepsaino::Refusal>) -> Reply {
    Reply::Check(given.map(summary).map_err(refusal))
}

fn refusal(refusal: lepsaino::Refusal) -> Refusal {
    Refusal::at(refusal.number, refusal.place)
}

fn text(loan: &Loan, length: Written) -> Reply {
    let (text, past) = loan.out.bytes().split_at(length.unwrap_or(0));
    Reply::Text {
        result: length.map(|_| text.to_vec()).map_err(refusal),
        changed: changed(loan, past),
    }
}

fn mended(loan: &Loan, given: Result<lepsaino::Mended, lepsaino::Refusal>) -> Reply {
    let length = given.map_or(0, |given| given.length);
    let (copy, past) = loan.out.bytes().split_at(length);
    let answer = |given: lepsaino::Mended| MendAnswer {
        mended: Mended {
            length: given.length,
            missing: given.missing,
            current: given.current,
            types: given.types,
            ids: given.ids,
            packed: given.packed,
            moved: given.moved,
        },
        copy: copy.to_vec(),
    };
    Reply::Mend {
        result: given.map(answer).map_err(refusal),
        changed: changed(loan, past),
    }
}

fn changed(loan: &Loan, past: &[u8]) -> usize {
    past.iter().filter(|&&byte| byte != loan.fill).count()
}

fn summary(checked: lepsaino::Checked) -> Summary {
    let order = if checked.big {
        ByteOrder::Big
    } else {
        ByteOrder::Little
    };
    Summary {
        header: Header {
            order,
            id: checked.id,
            mask: checked.mask,
            base: checked.base,
            registry_start: checked.registry_start,
            name_size: checked.name_size,
            registry_end: checked.registry_end,
            buffer_start: checked.buffer_start,
            buffer_end: checked.buffer_end,
            current: checked.current,
        },
        events: checked.events,
    }
}

fn event(loan: &Loan, event: &lepsaino::Event) -> EventAnswer {
    EventAnswer {
        words: arguments::words(&event.slot),
        ticks: event.ticks,
        context: match event.context {
            lepsaino::Context::Init => Context::Init,
            lepsaino::Context::Isr => Context::Isr,
            lepsaino::Context::Thread => Context::Thread,
        },
        name: event.name.map(|name| found(loan, name)),
        event_name: Some(event.event_name.map(|name| found(loan, name))),
    }
}

/// The name is a part of the dump or of the name file, so the two addresses tell where.
fn found(loan: &Loan, name: lepsaino::Name) -> FoundName {
    let (kind, lent) = match name.kind {
        lepsaino::NameKind::Live => (NameKind::Live, &loan.buffer),
        lepsaino::NameKind::Gone => (NameKind::Gone, &loan.buffer),
        lepsaino::NameKind::Filed => (NameKind::Filed, &loan.names),
    };
    FoundName {
        bytes: name.bytes.to_vec(),
        at: name.bytes.as_ptr() as usize - lent.bytes().as_ptr() as usize,
        kind,
    }
}
