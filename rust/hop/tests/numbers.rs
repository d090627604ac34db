//! Document 01's numbers through the safe crate, and what only this crate has. Uses the crate as its users do.

use hop::{Event, Ran, Reader, Refusal, State, Status, Way};

type Done = Result<(), Refusal>;

fn with_links(n: usize, links: &[(usize, usize)]) -> Result<State<Vec<u8>>, Refusal> {
    let mut state = State::new(n)?;
    for &(a, b) in links {
        state.up(a, b)?;
    }
    Ok(state)
}

#[test]
fn p1_and_p2_fresh_and_refused() -> Done {
    assert_eq!(State::new(1)?.as_bytes(), [1, 0, 0, 0, 1, 0, 0, 0]);
    assert_eq!(State::new(0).unwrap_err(), Refusal::NodeCount);
    assert_eq!(State::new(41).unwrap_err(), Refusal::NodeCount);
    assert_eq!(State::over([0; 40]).make(2), Err(Refusal::ShortBuffer));
    assert_eq!(State::over(Vec::new()).make(41), Err(Refusal::NodeCount));
    Ok(())
}

#[test]
fn p3_to_p6_two_nodes() -> Done {
    let mut state = with_links(2, &[(0, 1)])?;
    assert_eq!((state.queue_length(0, 1)?, state.queue_length(1, 0)?), (2, 2));
    let mut delivered = state.clone();
    delivered.deliver(0, 1)?;
    assert_eq!((delivered.route(1, 0)?.distance, delivered.total_queued()?), (1, 3));
    assert_eq!(state.run(0)?, Ran { passes: 0, deliveries: 0 });
    assert_eq!(state.run(255)?, Ran { passes: 2, deliveries: 5 });
    assert_eq!(state.deliver(0, 1), Err(Refusal::QueueIsEmpty));
    state.down(0, 1)?;
    assert_eq!(state.as_bytes(), State::new(2)?.as_bytes());
    assert_eq!(state.deliver(0, 1), Err(Refusal::LinkIsDown));
    Ok(())
}

#[test]
fn p7_and_p8_refusals_and_status() -> Done {
    let mut state = with_links(2, &[(0, 1)])?;
    assert_eq!(state.up(0, 1), Err(Refusal::LinkIsUp));
    assert_eq!(state.up(1, 1), Err(Refusal::OneNode));
    assert_eq!(state.up(2, 2), Err(Refusal::NoSuchNode));
    assert_eq!([state.route(65_536, 0), state.route(0, 2)], [Err(Refusal::NoSuchNode); 2]);
    let mut out = [0xee; 15];
    assert_eq!(state.write_status(1, &mut out)?, Status::LENGTH);
    assert_eq!(out, [12, 0, 1, 0, 1, 0, 2, 0, 2, 0, 0, 0, 4, 0, 0xee]);
    assert_eq!(state.write_status(1, &mut out[..13]), Err(Refusal::ShortBuffer));
    let status = Status { node: 1, waiting_for: 2, waiting_from: 2, reached: 0, total_queued: 4 };
    assert_eq!(state.status(1)?, status);
    Ok(())
}

#[test]
fn square_before_rest_and_at_rest() -> Done {
    let mut state = with_links(4, &[(0, 1), (0, 2), (1, 3), (2, 3)])?;
    let way = |distance, downstream| Ok(Way { distance, downstream });
    state.run(255)?;
    assert_eq!([0, 1, 3].map(|u| state.route(u, 3)), [way(2, Some(1)), way(1, Some(3)), way(0, Some(3))]);
    // Entries wait: 0 has not heard that 1 lost the link, and 1 believes what 0 said.
    state.down(1, 3)?;
    assert_eq!([0, 1, 3].map(|u| state.route(u, 3)), [way(2, Some(1)), way(3, Some(0)), way(0, Some(3))]);
    state.down(2, 3)?;
    state.run(255)?;
    assert_eq!([0, 1, 3].map(|u| state.route(u, 3)), [way(4, None), way(4, None), way(0, Some(3))]);
    Ok(())
}

#[test]
fn lent_read_only_and_damaged() -> Done {
    let mut bytes = with_links(3, &[(0, 1)])?.into_inner();
    assert_eq!(State::over(&bytes[..]).total_queued()?, 6);
    assert_eq!(State::over(&mut bytes[..]).pass()?, 6);
    bytes[2] = 7;
    let damaged = bytes.clone();
    assert_eq!(State::over(&mut bytes[..]).pass(), Err(Refusal::NotSound));
    assert_eq!(State::over(&bytes[..]).route(3, 3), Err(Refusal::NotSound));
    assert_eq!(bytes, damaged);
    assert_eq!(State::over(&bytes[..117]).check(), Err(Refusal::ShortBuffer));
    assert_eq!(State::over([]).check(), Err(Refusal::ShortBuffer));
    Ok(())
}

#[test]
fn events_are_read_as_written() -> Done {
    let events = [
        Event::Make { n: 65_535 },
        Event::Up { a: 0, b: 300 },
        Event::Down { a: 1, b: 2 },
        Event::Deliver { from: 40, to: 39 },
        Event::Pass,
        Event::Notice { noticing: 39, other: 256 },
    ];
    let mut script = Vec::new();
    for event in events {
        let mut record = [0; Event::LONGEST];
        let length = event.write(&mut record)?;
        script.extend_from_slice(&record[..length]);
        assert_eq!(event.write(&mut record[..length - 1]), Err(Refusal::ShortBuffer));
    }
    assert_eq!(Reader::new(&script).collect::<Result<Vec<Event>, Refusal>>()?, events);
    script.extend([12, 0, 1, 0]);
    let read: Vec<Result<Event, Refusal>> = Reader::new(&script).collect();
    assert_eq!((read.len(), read[6]), (7, Err(Refusal::UnknownKind)));
    // The first kind that is none, and a notice whose length is another kind's.
    assert_eq!(Reader::new(&[6, 0, 21, 0, 0, 0, 1, 0]).read(), Err(Refusal::UnknownKind));
    assert_eq!(Reader::new(&[4, 0, 20, 0, 0, 0]).read(), Err(Refusal::WrongLength));
    assert_eq!(Reader::new(&[6, 0, 20, 0, 0, 0]).read(), Err(Refusal::RecordCut));
    assert_eq!(Reader::at(&script, script.len() + 1).read(), Err(Refusal::RecordCut));
    Ok(())
}

#[test]
fn every_refusal_has_its_number() {
    for number in 1..=13 {
        assert_eq!(Refusal::of_number(number).map(Refusal::number), Some(number));
    }
    assert_eq!(Refusal::of_number(14), None);
}
