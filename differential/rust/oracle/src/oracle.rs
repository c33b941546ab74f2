//! One line in, one answer out.

use std::{
    cell::RefCell,
    panic::{AssertUnwindSafe, PanicHookInfo, catch_unwind},
};

use crate::{
    blocks,
    decks::{self, Deck},
    files::{self, File},
    operations::{self, Operation, Upload},
    stand::{self, Stand},
    text::{Answer, Reason, Stop, Tokens},
    unchecked::{Beside, Start},
};

const OUTSIDE: &str = "outside ";
/// The answer to a call at which the Rust panicked. The rules' domain has no such call, so it is a difference.
pub const PANIC: &str = "panic";
pub const LINE_LIMIT: usize = 4096;

thread_local! {
    /// While a panic of this thread would be caught: what it said, and where it was.
    static CAUGHT: RefCell<Option<String>> = const { RefCell::new(None) };
}

/// The hook of panics: the text goes to who catches it, or else to standard error.
pub fn tell_panic(panic: &PanicHookInfo<'_>) {
    let text = panic.to_string().replace('\n', " ");
    CAUGHT.with_borrow_mut(|caught| match caught {
        Some(caught) => *caught = text,
        None => eprintln!("oracle: {text}"),
    });
}

/// A call of the Rust that may panic: the panic's text where it did.
pub fn caught<R>(call: impl FnOnce() -> R) -> Result<R, String> {
    CAUGHT.set(Some(String::new()));
    let got = catch_unwind(AssertUnwindSafe(call));
    let text = CAUGHT.take().unwrap_or_default();
    got.map_err(|_| text)
}

#[derive(Default)]
pub struct Oracle {
    operation: Option<Operation>,
    upload: Option<Upload>,
    device: Option<Stand>,
    deck: Option<Deck>,
    file: Option<File>,
    beside: Beside,
    complaints: Vec<String>,
    is_quiet: bool,
}

impl Oracle {
    /// Complains to nobody.
    pub fn quiet() -> Oracle {
        Oracle { is_quiet: true, ..Oracle::default() }
    }

    /// With another upload in place of the Rust's without a check; quiet too.
    pub fn with_unchecked(start: Start) -> Oracle {
        Oracle { beside: Beside::of(start), ..Oracle::quiet() }
    }

    /// Images whose upload without a check was looked at.
    pub fn images(&self) -> usize {
        self.beside.images()
    }

    /// Lines that were not of the language, panics that were not expected, and uploads without a check that are not as the
    /// checked ones say.
    pub fn complaints(&self) -> &[String] {
        &self.complaints
    }

    fn complain(&mut self, complaint: String) {
        if !self.is_quiet {
            eprintln!("oracle: {complaint}");
        }
        self.complaints.push(complaint);
    }

    pub fn answer(&mut self, line: &str) -> String {
        match caught(|| self.call(line)) {
            Ok(Ok(answer)) => self.held(line, answer),
            Ok(Err(Stop(reason))) => {
                if reason == Reason::Unreadable {
                    self.complain(format!("not of the language: {line}"));
                }
                format!("{OUTSIDE}{}", reason.word())
            }
            Err(text) => {
                let (complaints, beside) =
                    (std::mem::take(&mut self.complaints), std::mem::take(&mut self.beside));
                *self = Oracle { complaints, beside, is_quiet: self.is_quiet, ..Oracle::default() };
                self.complain(format!("a panic that was not expected: {line}: {text}"));
                PANIC.into()
            }
        }
    }

    /// The answer; where the upload without a check is not as it must be that is told instead, which no program answers.
    fn held(&mut self, line: &str, answer: String) -> String {
        let Some(apart) = self.beside.told() else {
            return answer;
        };
        self.complain(format!("{line}: {apart}"));
        apart
    }

    /// None where the start was refused, or had no answer.
    fn start_device(&mut self, started: Result<(Option<Stand>, String), Stop>) -> Answer {
        self.device = None;
        let (device, answer) = started?;
        self.device = device;
        Ok(answer)
    }

    /// The current device's flash.
    pub fn flash(&self) -> Option<&[u8]> {
        self.device.as_ref().map(Stand::flash)
    }

    fn call(&mut self, line: &str) -> Answer {
        if line.len() >= LINE_LIMIT {
            return Err(Stop(Reason::Unreadable));
        }
        let mut tokens = Tokens::new(line);
        let name = tokens.word()?;
        let tokens = &mut tokens;
        match name {
            "dir" | "cod" | "sta" | "rst" | "idx" => blocks::number(name, tokens),
            "crd" => blocks::read_command(tokens),
            "cwr" => blocks::write_command(tokens),
            "cnv" => blocks::convert_command(tokens),
            "srd" => blocks::read_status(tokens),
            "swr" => blocks::write_status(tokens),
            "smp" => blocks::map_status(tokens),
            "chp" | "fid" | "fin" | "cap" => blocks::reply(name, tokens),
            "sto" => blocks::storage_reply(tokens),
            "sec" => blocks::sectors(tokens),
            "opn" => {
                self.operation = None;
                self.operation = Some(operations::start(tokens)?);
                Ok("0".into())
            }
            "stp" => there(&mut self.operation)?.step(tokens),
            "giv" => there(&mut self.operation)?.give(tokens),
            "run" => there(&mut self.operation)?.run(tokens, there(&mut self.device)?),
            "upl" => {
                self.upload = Some(operations::start_upload(tokens, &mut self.beside)?);
                Ok("0".into())
            }
            "ust" => there(&mut self.upload)?.step(tokens),
            "urn" => there(&mut self.upload)?.run(tokens, there(&mut self.device)?),
            "all" => operations::whole_list(tokens, &mut self.beside),
            "cut" => operations::cut_list(tokens, &mut self.beside),
            "dvd" => {
                let (device, answer) = stand::start_default(tokens)?;
                self.device = Some(device);
                Ok(answer)
            }
            "dvc" => self.start_device(stand::start_configured(tokens)),
            "dvn" => self.start_device(stand::start_nor(tokens)),
            "bwr" => there(&mut self.device)?.write_bulk(tokens),
            "brd" => there(&mut self.device)?.read_bulk(tokens),
            "ctl" => there(&mut self.device)?.write_control(tokens),
            "are" => there(&mut self.device)?.area(tokens),
            "lst" => there(&mut self.device)?.last_reset(tokens),
            "dck" => {
                let (deck, answer) = decks::start(tokens)?;
                self.deck = Some(deck);
                Ok(answer)
            }
            "blk" => there(&mut self.deck)?.deal(tokens, &mut self.beside),
            "dev" => there(&mut self.deck)?.device(tokens),
            "tim" | "lis" | "ent" | "hdr" => files::record(name, tokens),
            "fil" => {
                let (file, answer) = files::start(tokens)?;
                self.file = Some(file);
                Ok(answer)
            }
            "put" => there(&mut self.file)?.put(tokens),
            "nxt" => there(&mut self.file)?.step(tokens),
            "wlk" => there(&mut self.file)?.walk(tokens),
            "exa" => there(&mut self.file)?.examine(tokens),
            "dat" => there(&mut self.file)?.data(tokens),
            _ => Err(Stop(Reason::Unreadable)),
        }
    }
}

fn there<T>(thing: &mut Option<T>) -> Result<&mut T, Stop> {
    thing.as_mut().ok_or(Stop(Reason::NotThere))
}

/// Why an answer is none, where it is none.
pub fn outside(answer: &str) -> Option<Reason> {
    let word = answer.strip_prefix(OUTSIDE)?;
    Reason::ALL.into_iter().find(|reason| reason.word() == word)
}
