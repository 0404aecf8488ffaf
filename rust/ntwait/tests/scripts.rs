// SPDX-License-Identifier: MIT OR Apache-2.0
//! The worked scripts of the repository (docs/SCRIPTS.md) give the same transcripts through this crate.
use ntwait::{Access, Dispatcher, Handle, Moment, Refused, Thread, Timeout, Wait};
use std::collections::{BTreeSet, HashMap};
use std::fs;
use std::path::Path;

struct Player {
    nt: Dispatcher,
    names: HashMap<String, Handle>,
    pending: BTreeSet<u32>,
}

fn number<T: std::str::FromStr>(word: &str) -> T {
    word.parse().unwrap_or_else(|_| panic!("{word} is a number"))
}

fn time(word: &str) -> Timeout {
    if word == "inf" { Timeout::INFINITE } else { Timeout(number(word)) }
}

impl Player {
    fn handle(&self, word: &str) -> Handle {
        if word.starts_with(|it: char| it.is_ascii_digit()) {
            return Handle(number(word));
        }
        let thread = word.strip_prefix('t').filter(|it| !it.is_empty() && it.bytes().all(|byte| byte.is_ascii_digit()));
        thread.map_or_else(|| self.names[word], |it| Handle(number(it)))
    }

    fn create(&mut self, thread: Thread, keyword: &str, rest: &[&str]) -> Result<Handle, Refused> {
        match keyword {
            "event" => self.nt.create_event(thread, rest.contains(&"manual"), rest.contains(&"set")),
            "semaphore" => self.nt.create_semaphore(thread, number(rest[0]), number(rest[1])),
            "mutex" => self.nt.create_mutex(thread, rest.contains(&"owned")),
            "timer" => self.nt.create_timer(thread, rest.contains(&"manual")),
            _ => self.nt.duplicate_handle(thread, self.handle(rest[0]), Access(number(rest[1]))),
        }
    }

    fn wait(&mut self, thread: Thread, keyword: &str, rest: &[&str]) -> Result<Wait, Refused> {
        if keyword == "swap" {
            let (signal, wait) = (self.handle(rest[0]), self.handle(rest[1]));
            return self.nt.signal_object_and_wait(thread, signal, wait, time(rest[2]), rest[3] == "alertable");
        }
        let (timeout, alertable) = (time(rest[0]), rest[1] == "alertable");
        if keyword == "sleep" {
            return self.nt.sleep(thread, timeout, alertable);
        }
        let handles: Vec<_> = rest[2..].iter().map(|it| self.handle(it)).collect();
        if let ([handle], "any") = (&handles[..], keyword) {
            return self.nt.wait_for_single_object(thread, *handle, timeout, alertable);
        }
        self.nt.wait_for_multiple_objects(thread, &handles, keyword == "all", timeout, alertable)
    }

    fn act(&mut self, thread: Thread, keyword: &str, rest: &[&str]) -> Result<String, Refused> {
        let handle = rest.first().map_or(Handle(0), |it| self.handle(it));
        match keyword {
            "next" => {
                let apc = self.nt.next_apc(thread)?;
                let at = apc.and_then(|it| it.due).map_or(String::new(), |it| format!(" at {}", it.0));
                return Ok(apc.map_or("apc none".into(), |it| format!("apc {} {}{at}", it.routine, it.argument)));
            }
            "release" => return Ok(format!("previous {}", self.nt.release_semaphore(thread, handle, number(rest[1]))?)),
            "set" => self.nt.set_event(thread, handle)?,
            "reset" => self.nt.reset_event(thread, handle)?,
            "pulse" => self.nt.pulse_event(thread, handle)?,
            "unlock" => self.nt.release_mutex(thread, handle)?,
            "cancel" => self.nt.cancel_timer(thread, handle)?,
            "close" => self.nt.close_handle(thread, handle)?,
            "exit" => self.nt.exit_thread(thread)?,
            "apc" => self.nt.queue_apc(thread, handle, number(rest[1]), number(rest[2]))?,
            "arm" => {
                let routine = (rest.len() == 5).then(|| (number(rest[3]), number(rest[4])));
                self.nt.set_timer(thread, handle, number(rest[1]), number(rest[2]), routine)?;
            }
            _ => panic!("{keyword} is a keyword"),
        }
        Ok("ok".into())
    }

    fn said(&mut self, words: &[&str]) -> Result<String, Refused> {
        if words[0] == "tick" {
            return self.nt.tick(Moment(number(words[1]))).map(|()| "ok".into());
        }
        let (thread, keyword, rest) = (Thread(number(&words[0][1..])), words[1], &words[2..]);
        match keyword {
            "event" | "semaphore" | "mutex" | "timer" | "dup" => {
                let handle = self.create(thread, keyword, &rest[1..])?;
                self.names.insert(rest[0].into(), handle);
                Ok(format!("handle {}", handle.0))
            }
            "any" | "all" | "sleep" | "swap" => Ok(match self.wait(thread, keyword, rest)? {
                Wait::Ended(status) => format!("status 0x{:08X}", status.code()),
                Wait::Pending => {
                    self.pending.insert(thread.0);
                    "pending".into()
                }
            }),
            _ => self.act(thread, keyword, rest),
        }
    }

    fn line(&mut self, words: &[&str]) -> Vec<String> {
        match self.said(words) {
            Err(refused) => vec![format!("error {}", refused.number())],
            Ok(said) => {
                let grants: Vec<_> = self.nt.grants().collect();
                for it in &grants {
                    self.pending.remove(&it.thread.0);
                }
                let ended = grants.iter().map(|it| format!("t{} status 0x{:08X}", it.thread.0, it.status.code()));
                [said].into_iter().chain(ended).collect()
            }
        }
    }
}

fn transcript(script: &str) -> String {
    let (mut told, mut player) = (String::new(), None);
    for (at, line) in script.lines().enumerate() {
        let words: Vec<_> = line.split(';').next().unwrap_or("").split_whitespace().collect();
        match (&mut player, &words[..]) {
            (_, []) => {}
            (None, words) => {
                let nt = Dispatcher::new(number(words[1])).expect("a dispatcher");
                player = Some(Player { nt, names: HashMap::new(), pending: BTreeSet::new() });
            }
            (Some(player), words) => player.line(words).iter().for_each(|it| told += &format!("{}: {it}\n", at + 1)),
        }
    }
    let pending: Vec<_> = player.expect("a line").pending.iter().map(|it| format!("t{it}")).collect();
    let pending = if pending.is_empty() { "none".into() } else { pending.join(" ") };
    told + &format!("end: pending {pending}\n")
}

/// The lines of a block of tests/scripts that have this mark, without it.
fn marked(block: &str, mark: char) -> String {
    let lines = block.lines().filter_map(|it| it.strip_prefix(mark));
    lines.map(|it| format!("{}\n", it.strip_prefix(' ').unwrap_or(it))).collect()
}

/// The worked scripts that have no fault: each with its name and its transcript.
fn worked_scripts(folder: &Path) -> Vec<(String, String, String)> {
    let files = fs::read_dir(folder).expect("the worked scripts").map(|it| fs::read_to_string(it.expect("a file").path()).expect("a text"));
    let blocks = files.flat_map(|it| it.split("\n\n").map(String::from).collect::<Vec<_>>());
    let scripts = blocks.filter(|it| it.starts_with("script ") && marked(it, '!').is_empty());
    scripts.map(|it| (it.lines().next().unwrap_or("").into(), marked(&it, '|'), marked(&it, '>'))).collect()
}

/// The scripts of `examples` in this folder, likewise.
fn examples(folder: &Path) -> Vec<(String, String, String)> {
    let text = |name: &str| fs::read_to_string(folder.join(name)).expect("a text");
    let reports = format!("\n{}", text("examples/reports"));
    let transcripts = reports.trim_end().split("\n$ ").filter_map(|it| it.strip_prefix("./ntrun script ")?.split_once('\n'));
    transcripts.map(|(name, wanted)| (name.into(), text(name), format!("{wanted}\n"))).collect()
}

#[test]
fn worked_scripts_give_the_same_transcripts() {
    let top = Path::new(env!("CARGO_MANIFEST_DIR")).join("../..");
    let scripts = [worked_scripts(&top.join("tests/scripts")), examples(&top)].concat();
    assert!(scripts.len() >= 100, "{}", scripts.len());
    for (name, script, wanted) in scripts {
        assert_eq!(transcript(&script), wanted, "{name}");
    }
}
