//! A service that says back what it is asked to use.
use bean_words::{Name, Op, Reply};
use session::{Service, ServiceFault};

/// It says which tube it is asked to use, and that `default` is used where it is asked for that. It finds nothing for any
/// other operation.
#[derive(Drop)]
pub struct Echo {
    /// How often it was closed.
    pub times_closed: u64,
}

impl Echo {
    pub fn new() -> Echo {
        Echo { times_closed: 0 }
    }
}

impl Service for Echo {
    ghost asks = { λ _ _ _ _. Unit {0} };

    ghost closes = { λ _ _ _. Unit {0} };

    fn ask(&mut self, op: Op) -> Result<Reply, ServiceFault> {
        match op {
            Op::Use(tube) => Ok(Reply::Using(tube)),
            Op::ListTubeUsed => Ok(Reply::Using(Name::default_tube())),
            _ => Ok(Reply::NotFound),
        }
    }

    fn close(&mut self) -> Result<(), ServiceFault> {
        self.times_closed = self.times_closed.saturating_add(1);
        Ok(())
    }
}
