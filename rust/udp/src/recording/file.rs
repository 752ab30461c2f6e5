//! Writing a recording as it happens. Each event goes to the file at once, so that a program that is killed loses nothing, and to the disk at each change of a
//! claim, so that a power cut loses at most what came after the last.

use std::fs::{File, OpenOptions};
use std::io::{self, ErrorKind, Write};
use std::path::{Path, PathBuf};

use kurgashel::{Claim, Event, Responder, Which};

use super::Start;

/// A recording under way.
pub struct Recording {
    file: File,
    events: kurgashel::Recorder,
    /// How the claims stood when they were last recorded.
    told: [Option<Claim>; 2],
}

impl Recording {
    /// A new file, with its first line: the path itself, or the first of PATH.2, PATH.3 and so on that is not there, since no recording is written over. Gives
    /// the path too.
    pub fn create(path: &Path, start: &Start) -> io::Result<(Recording, PathBuf)> {
        let (mut file, path) = create_new(path)?;
        file.write_all(format!("{}\n", start.line()).as_bytes())?;
        let recording = Recording {
            file,
            events: kurgashel::Recorder::new(),
            told: [None; 2],
        };
        Ok((recording, path))
    }

    /// Records a call that was made, and then each claim that stands otherwise than before.
    pub fn record(&mut self, call: &Event, responder: &Responder) -> io::Result<()> {
        self.write(call)?;
        self.record_claims(responder)
    }

    /// Records each claim that stands otherwise than before.
    pub fn record_claims(&mut self, responder: &Responder) -> io::Result<()> {
        let claims = [
            (Which::Instance, responder.instance()),
            (Which::Host, responder.host()),
        ];
        let before = self.told;
        for (which, state) in claims {
            if self.told[which as usize].replace(state) != Some(state) {
                let last = responder.last();
                self.write(&Event::Claim { last, which, state })?;
            }
        }
        if self.told != before {
            self.file.sync_data()?;
        }
        Ok(())
    }

    fn write(&mut self, event: &Event) -> io::Result<()> {
        let recorded = self.events.record(event);
        recorded.map_err(|refusal| io::Error::new(ErrorKind::InvalidInput, refusal))?;
        self.file.write_all(self.events.trace())?;
        self.events.clear();
        Ok(())
    }
}

fn create_new(path: &Path) -> io::Result<(File, PathBuf)> {
    let mut next = path.to_path_buf();
    let mut number = 2;
    loop {
        match OpenOptions::new().append(true).create_new(true).open(&next) {
            Err(error) if error.kind() == ErrorKind::AlreadyExists => {
                let mut name = path.as_os_str().to_os_string();
                name.push(format!(".{number}"));
                next = name.into();
                number += 1;
            }
            opened => return opened.map(|file| (file, next)),
        }
    }
}

#[cfg(test)]
mod tests {
    use super::super::start::tests::LINE;
    use super::*;

    #[test]
    fn a_recording_is_played_again() {
        let folder = std::env::temp_dir().join(format!("recording-{}", std::process::id()));
        std::fs::create_dir_all(&folder).unwrap();
        let start = Start::read(LINE).unwrap();
        let path = folder.join("dock.trace");
        let mut responder = Responder::start(&start.setup(), start.now, start.draw).unwrap();
        let (mut recording, first) = Recording::create(&path, &start).unwrap();
        recording.record_claims(&responder).unwrap();
        let mut out = [0; kurgashel::OUT_BYTES];
        while let Some(now) = responder.due() {
            responder.tick(now, &mut out).unwrap();
            recording.record(&Event::Tick { now }, &responder).unwrap();
        }
        assert_eq!(first, path);
        let bytes = std::fs::read(&path).unwrap();
        let line_end = LINE.len();
        assert_eq!(&bytes[..line_end + 1], format!("{LINE}\n").as_bytes());
        let mut player = kurgashel::Player::start(&start.setup(), start.now, start.draw).unwrap();
        let lines = player.lines(&bytes[line_end + 1..]);
        let lines: Vec<_> = lines.map(|line| line.unwrap()).collect();
        assert_eq!(lines.len(), 6);
        assert!(lines.iter().all(|line| line.agrees));
        assert_eq!(lines[5].state, Claim::Held);
        // another recording takes another name
        let (_, second) = Recording::create(&path, &start).unwrap();
        assert_eq!(second, folder.join("dock.trace.2"));
        std::fs::remove_dir_all(&folder).unwrap();
    }
}
