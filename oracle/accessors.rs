// What follows is not part of the published source. oracle/prepare appends it
// to a build copy, so that a comparison can read and set private fields.

/// One component's status with public fields.
#[derive(Clone, Copy, PartialEq, Eq, Debug)]
pub struct Status {
    pub isolated: bool,
    pub retry: u8,
    pub awaiting_boot: bool,
    pub released: bool,
}

impl From<ComponentStatus> for Status {
    fn from(status: ComponentStatus) -> Self {
        Self {
            isolated: status.lifecycle == ComponentLifecycle::Isolated,
            retry: status.retry,
            awaiting_boot: status.awaiting_boot,
            released: status.released,
        }
    }
}

impl From<Status> for ComponentStatus {
    fn from(status: Status) -> Self {
        Self {
            lifecycle: if status.isolated {
                ComponentLifecycle::Isolated
            } else {
                ComponentLifecycle::Nominal
            },
            retry: status.retry,
            awaiting_boot: status.awaiting_boot,
            released: status.released,
        }
    }
}

impl<const N: usize, const E: usize> Orchestrator<N, E> {
    /// A machine in any situation; `statuses` has one status for each component.
    pub fn from_parts(
        chain: Chain<N>,
        max_retry: u8,
        state: State,
        cursor: u8,
        statuses: &[Status],
        pending_commit: bool,
    ) -> Self {
        let mut machine = Self::new(chain, max_retry);
        assert_eq!(statuses.len(), machine.chain_len());
        for (place, status) in machine.rot.statuses.iter_mut().zip(statuses) {
            *place = (*status).into();
        }
        machine.state = state;
        machine.rot.cursor = cursor;
        machine.rot.pending_commit = pending_commit;
        machine
    }

    /// The position under verification, or the chain's length after the walk.
    pub fn cursor(&self) -> u8 {
        self.rot.cursor
    }

    /// Whether the commit window is open.
    pub fn pending_commit(&self) -> bool {
        self.rot.pending_commit
    }

    /// The number of restores at which recovery is exhausted.
    pub fn max_retry(&self) -> u8 {
        self.rot.max_retry
    }

    /// The number of components.
    pub fn chain_len(&self) -> usize {
        self.rot.chain.len()
    }

    /// The status of the component at `position`, which is below `chain_len`.
    pub fn status(&self, position: usize) -> Status {
        self.rot.statuses[position].into()
    }

    /// Runs `step` for one event; the sink holds the effects in order.
    pub fn step_once(&mut self, event: &Event) -> Sink<E> {
        let mut sink = Sink::new();
        self.step(event, &mut sink);
        sink
    }
}
