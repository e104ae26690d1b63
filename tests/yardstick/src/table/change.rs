use super::record::Record;
use super::step::Step;
use super::Table;
use crate::answer::Wiring;

impl Table {
    /// Takes a step that this table has judged. Of the experiment number only an asking makes use.
    pub fn take(&mut self, step: Step, experiment: u16) {
        match step {
            Step::Nothing | Step::Value(_) | Step::CombinedValue(_) => {}
            Step::Attach { port, device } => self.add(Record::attached(port, device, Wiring::Unjoined)),
            Step::AttachVirtual { port, device, members } => {
                let [port_a, port_b] = members;
                self.add(Record::attached(port, device, Wiring::Virtual { port_a, port_b }));
                for member in members {
                    self.judged(member).wiring = Wiring::Joined { virtual_port: port };
                }
            }
            Step::Detach { port } => self.detach(port),
            Step::Format { port, mode, format } => self.judged(port).formats[usize::from(mode)] = Some(format),
            Step::Ask { port, setup } => self.judged(port).ask(setup, experiment),
            Step::AskList { port, list } => self.judged(port).ask_list(list, experiment),
            Step::Answer { port, setup } => self.judged(port).answer(setup),
            Step::Combine { port, pointers } => self.judged(port).combine(pointers),
            Step::Empty => *self = Table::default(),
        }
    }

    /// Removes a port. With a member goes its virtual port; the members that stay are freed.
    fn detach(&mut self, port: u8) {
        match self.judged(port).wiring {
            Wiring::Unjoined => {}
            Wiring::Joined { virtual_port } => self.detach(virtual_port),
            Wiring::Virtual { port_a, port_b } => {
                for member in [port_a, port_b] {
                    self.judged(member).wiring = Wiring::Unjoined;
                }
            }
        }
        self.remove(port);
    }

    /// Adds a record at the lowest free place.
    fn add(&mut self, record: Record) {
        let place = self.places.iter_mut().find(|place| place.is_none());
        *place.expect("room is judged before") = Some(record);
    }

    fn remove(&mut self, port: u8) {
        let place = self
            .places
            .iter_mut()
            .find(|it| it.as_ref().is_some_and(|it| it.port == port));
        *place.expect("the port is judged before") = None;
    }

    fn judged(&mut self, port: u8) -> &mut Record {
        self.record_mut(port).expect("the port is judged before")
    }
}
