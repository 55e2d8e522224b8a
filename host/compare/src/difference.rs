//! A difference found: its report, and the files to replay it with.

use std::{env, fs};

use crate::engines::{Call, Reply};

pub struct Difference {
    /// What differs.
    pub what: &'static str,
    pub call: Call,
    pub call_number: u64,
    /// Who said what, and who expected what.
    pub said: (&'static str, Reply),
    pub expected: (&'static str, Reply),
    /// The first byte of the image or of the buffer that differs, if one does.
    pub first_byte: Option<usize>,
    pub plan: Vec<u8>,
    /// The image before the call, the log, or the buffer of images.
    pub lent: Vec<u8>,
}

impl Difference {
    pub fn report(&self, seed: u64) {
        println!("seed {seed}, call {}: {:?}", self.call_number, self.call);
        println!("different: {}", self.what);
        for (who, reply) in [self.said, self.expected] {
            println!("{who}: {reply:?}");
        }
        let lends = self.call.lends();
        match self.first_byte {
            Some(at) => println!("the {lends}s after the call differ from byte {at} on"),
            None => println!("the {lends}s after the call are equal"),
        }
        self.save(seed, "plan", &self.plan);
        self.save(seed, lends, &self.lent);
        if let Some((name, bytes)) = self.call.on_top() {
            self.save(seed, name, bytes);
        }
    }

    fn save(&self, seed: u64, kind: &str, bytes: &[u8]) {
        let path = env::temp_dir().join(format!("compare-{seed}-{}.{kind}", self.call_number));
        match fs::write(&path, bytes) {
            Ok(()) => println!("{kind} before the call: {}", path.display()),
            Err(error) => println!("{}: {error}", path.display()),
        }
    }
}
