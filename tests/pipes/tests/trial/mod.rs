//! The processes of one network, and what carries bytes between them.

pub mod damage;

use std::collections::VecDeque;
use std::io::{BufReader, Read};
use std::process::{Child, ChildStdin, ChildStdout, Command, Stdio};

use draw_tracker::Message;
use pipes::{read_answer, read_numbers, write_request, MessageBytes, Request};
use reference::message::TOUCH;

use damage::{damaged_arrivals, damaged_messages, Known};

/// The generator splitmix64.
pub struct Random(pub u64);

impl Random {
    pub fn below(&mut self, bound: u64) -> u64 {
        self.0 = self.0.wrapping_add(0x9e37_79b9_7f4a_7c15);
        let mut mixed = self.0;
        mixed = (mixed ^ (mixed >> 30)).wrapping_mul(0xbf58_476d_1ce4_e5b9);
        mixed = (mixed ^ (mixed >> 27)).wrapping_mul(0x94d0_49bb_1331_11eb);
        (mixed ^ (mixed >> 31)) % bound
    }

    pub fn pick<T: Copy>(&mut self, choices: &[T]) -> T {
        choices[self.below(choices.len() as u64) as usize]
    }
}

/// A process with the pipes to and from it.
struct Process {
    child: Child,
    input: Option<ChildStdin>,
    output: BufReader<ChildStdout>,
}

impl Process {
    fn start(program: &str, numbers: &[u32]) -> Process {
        let mut child = Command::new(program)
            .args(numbers.iter().map(u32::to_string))
            .stdin(Stdio::piped())
            .stdout(Stdio::piped())
            .spawn()
            .expect("the process starts");
        let input = child.stdin.take();
        let output = BufReader::new(child.stdout.take().expect("its output is a pipe"));
        Process { child, input, output }
    }

    fn ask(&mut self, request: Request) {
        let input = self.input.as_mut().expect("its input is open");
        write_request(input, request).expect("the process reads on");
    }

    /// The refusal, and the messages that go out.
    fn messages(&mut self, request: Request) -> (u32, Vec<MessageBytes>) {
        self.ask(request);
        read_answer(&mut self.output).expect("the process answers")
    }

    fn numbers(&mut self, request: Request) -> Vec<u64> {
        self.ask(request);
        let (refusal, numbers) = read_numbers(&mut self.output).expect("the process answers");
        assert_eq!(refusal, 0);
        numbers
    }

    /// Closes the process's input: it says nothing more, and ends well.
    fn finish(mut self) {
        self.input = None;
        let mut rest = Vec::new();
        self.output.read_to_end(&mut rest).expect("its output ends");
        assert_eq!(rest, []);
        assert!(self.child.wait().expect("the process ends").success());
    }
}

impl Drop for Process {
    /// Where a test fails no process is left over.
    fn drop(&mut self) {
        self.input = None;
        if std::thread::panicking() {
            let _ = self.child.kill();
        }
        let _ = self.child.wait();
    }
}

/// k sites and a coordinator, each in a process of its own.
pub struct Trial {
    settings: [u32; 6],
    sites: Vec<Process>,
    coordinator: Process,
    /// What damaged messages are made of: all of it was seen on the way.
    known: Known,
    /// Every message that went out, in order.
    pub messages: Vec<MessageBytes>,
    /// How often each refusal was met.
    pub refused: [u64; 15],
    pub random: Random,
}

impl Trial {
    pub fn start(settings: [u32; 6], seed: u64) -> Trial {
        let site = |number: u32| {
            let numbers: Vec<u32> = settings.iter().copied().chain([number]).collect();
            Process::start(env!("CARGO_BIN_EXE_site"), &numbers)
        };
        Trial {
            settings,
            sites: (0..settings[0]).map(site).collect(),
            coordinator: Process::start(env!("CARGO_BIN_EXE_coordinator"), &settings),
            known: Known::start(settings),
            messages: Vec::new(),
            refused: [0; 15],
            random: Random(seed),
        }
    }

    /// The process that a message is for: the coordinator, or the site that the message names.
    fn receiver(&mut self, bytes: MessageBytes) -> &mut Process {
        let message = Message::from_bytes(&bytes);
        if message.is_for_deck() {
            &mut self.sites[message.deck as usize]
        } else {
            &mut self.coordinator
        }
    }

    /// An arrival, and all messages that follow, carried in the order of going out. Damaged ones
    /// come in between, and touches.
    pub fn take(&mut self, arrival: [u32; 3]) {
        self.try_damaged_arrival(arrival);
        self.try_damaged_reports(arrival);
        let site = &mut self.sites[arrival[0] as usize];
        let (refusal, sent) = site.messages(Request::Arrival(arrival));
        assert_eq!(refusal, 0);
        let mut waiting = VecDeque::from(sent);
        while let Some(bytes) = waiting.pop_front() {
            self.try_touch(arrival);
            self.try_damaged_message(bytes);
            self.messages.push(bytes);
            self.known.see(Message::from_bytes(&bytes));
            let (refusal, sent) = self.receiver(bytes).messages(Request::Message(bytes));
            assert_eq!(refusal, 0, "{:?}", Message::from_bytes(&bytes));
            waiting.extend(sent);
        }
    }

    /// A touch of the same item at any site: it is accepted, and nothing goes out.
    fn try_touch(&mut self, [_, item, _]: [u32; 3]) {
        if self.random.below(4) != 0 {
            return;
        }
        let site = self.random.below(u64::from(self.settings[0])) as u32;
        let touch = Request::Arrival([site, item, TOUCH]);
        assert_eq!(self.sites[site as usize].messages(touch), (0, vec![]));
    }

    /// A damaged message comes first where a right one is due; its receiver refuses it.
    fn try_damaged_message(&mut self, due: MessageBytes) {
        if self.random.below(4) != 0 {
            return;
        }
        let choices = damaged_messages(&self.known, Message::from_bytes(&due));
        let (damaged, number) = self.random.pick(&choices);
        let receiver = self.receiver(due);
        let answer = receiver.messages(Request::Message(damaged.to_bytes()));
        self.refused(answer, number, &format!("{damaged:?}"));
    }

    /// Between arrivals reports are due at the coordinator, and damaged ones refused.
    fn try_damaged_reports(&mut self, [site, item, value]: [u32; 3]) {
        let report = self.known.report(site, item, value, self.random.below(2) == 0);
        self.try_damaged_message(report.to_bytes());
    }

    fn try_damaged_arrival(&mut self, arrival: [u32; 3]) {
        if self.random.below(4) != 0 {
            return;
        }
        let (damaged, number) = self.random.pick(&damaged_arrivals(&self.known, arrival));
        let answer = self.sites[arrival[0] as usize].messages(Request::Arrival(damaged));
        self.refused(answer, number, &format!("{damaged:?}"));
    }

    fn refused(&mut self, answer: (u32, Vec<MessageBytes>), number: u32, damaged: &str) {
        assert_eq!(answer, (number, vec![]), "{damaged} under {:?}", self.settings);
        self.refused[number as usize] += 1;
    }

    /// The class and the list, as the coordinator's process reads them.
    pub fn read(&mut self) -> Vec<u64> {
        self.coordinator.numbers(Request::Read)
    }

    /// Each site's record and memory, and the coordinator's.
    pub fn state(&mut self) -> (Vec<Vec<u64>>, Vec<u64>) {
        let sites = self.sites.iter_mut().map(|site| site.numbers(Request::State)).collect();
        (sites, self.coordinator.numbers(Request::State))
    }

    /// All inputs are closed, and all processes end.
    pub fn finish(self) {
        self.sites.into_iter().chain([self.coordinator]).for_each(Process::finish);
    }
}
