//! What the worked example of the step calls (crates/blade) has to print. The
//! effects and states come from the Rust's `dispatch_with`; the numbers of the
//! refused calls come from document 01.

use openprot_orchestrator_sm::{
    Chain, ComponentAttrs, ComponentId, Effect, Event, Orchestrator, PowerOnResult,
};
use oracle::sheets::text;

type Rust = Orchestrator<256, 514>;

/// What the board says to an effect: firmware that it is to verify passes.
fn follow_up(effect: Effect) -> Option<Event> {
    match effect {
        Effect::VerifyFirmware(id) => Some(Event::VerificationPassed(id)),
        _ => None,
    }
}

fn drive(machine: &mut Rust, event: Event) {
    machine.dispatch_with(event, |effect| {
        println!("X\t{}", text::effect(&effect));
        Ok(follow_up(effect))
    });
}

fn main() {
    let one = ComponentId::new(1);
    let three = ComponentId::new(3);
    let cards = [
        (one, ComponentAttrs::active_required()),
        (ComponentId::new(2), ComponentAttrs::passive_isolable()),
        (three, ComponentAttrs::active_cascading()),
        (
            ComponentId::new(4),
            ComponentAttrs::passive_isolable().with_depends_on(three),
        ),
    ];
    let mut list = heapless::Vec::<_, 256>::new();
    for card in cards {
        list.push(card).expect("room for four");
    }
    let chain = Chain::<256>::try_from(list).expect("an accepted chain");
    let mut machine = Rust::new(chain, 3);
    let before = [
        Event::PowerGood(PowerOnResult::Provisioned),
        Event::Timeout(one),
        Event::Restored(one),
        Event::Booted(one),
        Event::CorruptionDetected(three),
    ];
    for event in before {
        drive(&mut machine, event);
        println!("S\t{}", text::state(machine.state()));
    }
    let isolated = (0..4).filter(|&p| machine.status(p).isolated);
    let word: u64 = isolated.clone().map(|p| 1 << p).sum();
    println!("isolated\t{}\t{word}", isolated.count());
    for event in [
        Event::UpdateRequest,
        Event::UpdateVerified,
        Event::BootConfirmed(one),
    ] {
        drive(&mut machine, event);
        println!("S\t{}", text::state(machine.state()));
    }
    // An event is begun and its effect left waiting: a second begin is refused.
    println!("begin\t10");
    drive(&mut machine, Event::AttestationChallenge);
    // Nothing waits any more: a reply is refused.
    println!("reply\t7");
    println!("S\t{}", text::state(machine.state()));
}
