//! The clients of one thread, which waits for all of them at once.

use crate::client::Client;
use crate::fault::Fault;
use crate::poller::Poller;

/// How many bytes are read at a time.
const ROOM: usize = 65_536;

pub struct Group<'a> {
    poller: Poller,
    clients: Vec<Client<'a>>,
}

impl<'a> Group<'a> {
    /// Without clients.
    pub fn new() -> Result<Group<'a>, Fault> {
        Ok(Group {
            poller: Poller::new()?,
            clients: Vec::new(),
        })
    }

    /// Takes in a client.
    pub fn take_in(&mut self, client: Client<'a>) -> Result<(), Fault> {
        self.poller.add(&client, self.clients.len())?;
        self.clients.push(client);
        Ok(())
    }

    /// Lets its clients handle all their jobs, and tells how long each command took.
    pub fn handle_all(mut self) -> Result<Vec<u64>, Fault> {
        let mut times = Vec::with_capacity(self.clients.iter().map(Client::commands_left).sum());
        let mut piece = vec![0; ROOM];
        for client in &mut self.clients {
            client.begin()?;
        }
        let mut working = self
            .clients
            .iter()
            .filter(|client| !client.has_ended())
            .count();
        while working > 0 {
            for place in self.poller.wait()? {
                let client = &mut self.clients[place];
                let has_worked = !client.has_ended();
                client.go_on(&mut piece, &mut times)?;
                if has_worked && client.has_ended() {
                    working -= 1;
                }
            }
        }
        Ok(times)
    }
}
