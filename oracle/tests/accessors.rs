//! The appended accessors, on rows of document 01's "Ten rows".

use openprot_orchestrator_sm::{
    Chain, ComponentAttrs, ComponentId, Effect, Event, Orchestrator, State, Status,
};

const NOMINAL: Status = Status {
    isolated: false,
    retry: 0,
    awaiting_boot: false,
    released: false,
};

fn chain(entries: &[(ComponentId, ComponentAttrs)]) -> Chain<256> {
    let mut list = heapless::Vec::new();
    for entry in entries {
        list.push(*entry).unwrap();
    }
    Chain::try_from(list).unwrap()
}

/// Component 7 alone, Required, in recovery with retry 0.
fn recovering(max_retry: u8) -> Orchestrator<256, 514> {
    let id = ComponentId::new(7);
    Orchestrator::from_parts(
        chain(&[(id, ComponentAttrs::active_required())]),
        max_retry,
        State::Recovering(id),
        0,
        &[NOMINAL],
        false,
    )
}

#[test]
fn the_parts_read_back() {
    let statuses = [
        NOMINAL,
        Status {
            isolated: true,
            retry: 9,
            awaiting_boot: true,
            released: true,
        },
    ];
    let ids = [ComponentId::new(1), ComponentId::new(2)];
    let machine = Orchestrator::<256, 514>::from_parts(
        chain(&ids.map(|id| (id, ComponentAttrs::passive_isolable()))),
        5,
        State::Updating,
        1,
        &statuses,
        true,
    );
    assert_eq!(machine.state(), State::Updating);
    assert_eq!(machine.cursor(), 1);
    assert!(machine.pending_commit());
    assert_eq!(machine.max_retry(), 5);
    assert_eq!(machine.chain_len(), 2);
    assert_eq!([machine.status(0), machine.status(1)], statuses);
}

#[test]
fn max_retry_0_or_1_reports() {
    let id = ComponentId::new(7);
    for max_retry in [0, 1] {
        let mut machine = recovering(max_retry);
        let sink = machine.step_once(&Event::Restored(id));
        let expected = [
            Effect::ReportRecoveryFailed(id),
            Effect::Emit(Event::RecoveryFailed),
        ];
        assert_eq!(sink.effects(), expected);
        assert_eq!(machine.state(), State::Recovering(id));
        assert_eq!(machine.status(0).retry, 1);
    }
}

#[test]
fn max_retry_2_walks_again() {
    let id = ComponentId::new(7);
    let mut machine = recovering(2);
    let sink = machine.step_once(&Event::Restored(id));
    let expected = [Effect::ReadFirmware(id), Effect::VerifyFirmware(id)];
    assert_eq!(sink.effects(), expected);
    assert_eq!(machine.state(), State::PreSupervision);
    assert_eq!(machine.status(0).retry, 1);
}

#[test]
fn an_exhausted_cascade_holds_the_rest_and_walks_again() {
    let (one, two) = (ComponentId::new(1), ComponentId::new(2));
    let entries = [
        (one, ComponentAttrs::active_required()),
        (two, ComponentAttrs::active_cascading()),
    ];
    let released = Status {
        released: true,
        ..NOMINAL
    };
    let mut machine = Orchestrator::<256, 514>::from_parts(
        chain(&entries),
        0,
        State::Recovering(two),
        1,
        &[released, NOMINAL],
        false,
    );
    let sink = machine.step_once(&Event::Restored(two));
    let expected = [
        Effect::AssertReset(two),
        Effect::ReportIsolated(two),
        Effect::AssertReset(one),
        Effect::ReadFirmware(one),
        Effect::VerifyFirmware(one),
    ];
    assert_eq!(sink.effects(), expected);
    assert_eq!(machine.state(), State::PreSupervision);
    assert!(machine.status(1).isolated);
}
