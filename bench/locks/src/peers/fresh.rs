//! Names that nobody has had before.

pub struct Fresh {
    prefix: String,
    count: u64,
}

impl Fresh {
    /// Those of client c of this process.
    pub fn of(c: usize) -> Fresh {
        Fresh { prefix: format!("new/{}/{c}/", std::process::id()), count: 0 }
    }

    pub fn name(&mut self) -> String {
        self.count += 1;
        format!("{}{}", self.prefix, self.count)
    }
}
