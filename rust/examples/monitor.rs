//! A small monitor whose page tables follow the queue: a page-table writer to start from. An address is the number of a page, a page table an array for
//! each domain slot. It does what the writer of theorem `follows` does (the crate's front page, "What a page-table writer does"). After each step the
//! queue is drained, before a program is entered, and every page table is held against the permission list: a difference ends the program. It prints what
//! the repository's examples/monitor.c prints, examples/monitor.out: each step, and below it what is done in hardware.
//!
//!     cargo run --offline --example monitor

use std::error::Error;
use std::fmt::Write as _;
use std::io::{self, Write as _};
use std::process::ExitCode;

use mityvurno::{raw, Domain, Marks, Refusal, Rights, Sizes, Tables, Update};

/// Four records for each region, and a place in the ring for each domain and each region: the front page, "Choosing sizes".
const SIZES: Sizes = Sizes { domains: 4, slots: 8, regions: 8, records: 4 * 8 - 3, updates: 4 + 8 };
const PAGES: usize = 64;
const CORES: usize = 3;

/// The entries of a page table: 0, or MAPPED and the rights of the page.
type Pages = [u16; PAGES];
const MAPPED: u16 = 256;

/// What ends the program: a call that was not answered as it had to be, or a page table that differs.
type Done<T> = Result<T, Box<dyn Error>>;

/// Of a domain slot: the domain that is open there, and the page table, which cores and devices use while it is.
#[derive(Clone, Copy)]
struct Slot {
    live: Option<Domain>,
    pages: Pages,
}

/// What a program may ask for; all other calls are the platform's.
enum Request {
    Alias(u64, u64, u64, Rights),
    Carve(u64, u64, u64, Rights),
    Send(u64, u64),
    WayBack(u64),
    Revoke(u64),
}

struct Monitor<'m> {
    tables: Tables<'m>,
    slots: [Slot; SIZES.domains],
    /// Whose program runs on a core.
    running: [Option<Domain>; CORES],
    /// A byte for each page.
    memory: [u8; PAGES],
    log: &'m mut String,
}

/// The bits of an entry that an update tells anew. UNCACHEABLE goes with the reach; the marks of READ to SUPER are the rights, one bit up.
fn told(marks: Marks) -> u16 {
    let rights = (marks.bits() >> 1) as u16 & u16::from((Rights::READ | Rights::WRITE | Rights::EXEC | Rights::SUPER).bits());
    if marks.contains(Marks::REACH) { rights | MAPPED | u16::from(Rights::UNCACHEABLE.bits()) } else { rights }
}

// ---- what the writer forgets: no update tells it

impl<'m> Monitor<'m> {
    /// A making: every page table is void.
    fn make(memory: &'m mut [u64], log: &'m mut String) -> Done<Monitor<'m>> {
        let tables = Tables::make(memory, SIZES)?;
        Ok(Monitor { tables, slots: [Slot { live: None, pages: [0; PAGES] }; SIZES.domains], running: [None; CORES], memory: [0; PAGES], log })
    }

    /// An opening: the page table of the slot is void. What it has is a closed domain's.
    fn opened(&mut self, d: Domain) -> Domain {
        self.slots[d.slot as usize] = Slot { live: Some(d), pages: [0; PAGES] };
        self.say(format!("  {d} is opened"));
        d
    }

    /// After a revoke, a program's too: a handle that gives 3 is that of a closed domain. No core runs it, for a domain with a core map is not closed;
    /// from here on no device goes by its page table either. The entries stay until the slot is opened again.
    fn drop_closed(&mut self) -> Done<()> {
        for k in 0..SIZES.domains {
            let Some(d) = self.slots[k].live else { continue };
            if self.list(d)?.is_none() {
                self.slots[k].live = None;
                self.say(format!("  {d} is closed"));
            }
        }
        Ok(())
    }
}

// ---- the queue

impl Monitor<'_> {
    /// The entries that the domain's permission list gives; none where its handle is dead. No range ends past PAGES, for the root does not.
    fn list(&mut self, d: Domain) -> Done<Option<Pages>> {
        let mut run = [raw::Permission::default(); SIZES.records];
        let permissions = match self.tables.permissions(d, &mut run) {
            Err(Refusal::NoDomain) => return Ok(None),
            answer => answer?,
        };
        let mut pages = [0; PAGES];
        for p in permissions {
            pages[p.start as usize..p.end as usize].fill(MAPPED | u16::from(p.rights.bits()));
        }
        Ok(Some(pages))
    }

    /// What is marked is read anew, the rest stays. An update of a closed domain tells nothing, whatever its slot holds now.
    fn rewrite(&mut self, d: Domain, cores: u64, marks: Marks) -> Done<()> {
        let Some(listed) = self.list(d)? else {
            self.say(format!("  {d} was closed: nothing to rewrite"));
            return Ok(());
        };
        // `cores` is the core map of the moment when the update was queued: the domain may run on others by now.
        let cores = cores | self.tables.core_map(d)?;
        let anew = told(marks);
        let mut line = format!("  {d} flush {cores} ");
        for (page, listed) in self.slots[d.slot as usize].pages.iter_mut().zip(listed) {
            *page = *page & !anew | listed & anew;
            if *page & MAPPED == 0 { line.push('.') } else { write!(line, "{:x}", *page & 15)? }
        }
        self.say(line);
        Ok(())
    }

    /// All page tables are rewritten by now: nobody writes here by what it had before, and whoever has the range now finds zeroes.
    fn wipe(&mut self, start: u64, end: u64) {
        self.memory[start as usize..end as usize].fill(0);
        self.say(format!("  wipe {start} to {end}"));
    }

    /// What theorem `followed` says of an empty queue: the page table of every live domain is what its list gives.
    fn check(&mut self) -> Done<()> {
        for k in 0..SIZES.domains {
            let Some(d) = self.slots[k].live else { continue };
            let listed = self.list(d)?.ok_or(Refusal::NoDomain)?;
            if let Some(page) = (0..PAGES).find(|&p| self.slots[k].pages[p] != listed[p]) {
                let mapped = self.slots[k].pages[page];
                return Err(format!("page {page} of slot {k} is mapped as {mapped}, and listed as {}", listed[page]).into());
            }
        }
        Ok(())
    }

    /// The end of a step: the queue is emptied, and then the ranges of clean-ups are wiped, for the update of a domain that lost such a range may
    /// stand behind it. Only then is a program entered, on whichever core.
    fn settle(&mut self) -> Done<()> {
        let mut cleanups = Vec::new();
        while let Some(update) = self.tables.pop()? {
            match update {
                Update::Permission { domain, cores, marks } => self.rewrite(domain, cores, marks)?,
                Update::CleanUp { start, end } => cleanups.push((start, end)),
            }
        }
        for (start, end) in cleanups {
            self.wipe(start, end);
        }
        self.check()
    }

    fn say(&mut self, line: impl AsRef<str>) {
        *self.log += line.as_ref();
        *self.log += "\n";
    }
}

// ---- programs, and the platform's steps

impl Monitor<'_> {
    /// A program traps on a core. Which domain it is the monitor knows by the core; what the program says are numbers, which the engine tests.
    fn trap(&mut self, core: usize, request: Request) -> Done<Result<u64, Refusal>> {
        let (d, t) = (self.running[core].ok_or(Refusal::NoDomain)?, &mut self.tables);
        let answer = match request {
            Request::Alias(local, start, end, rights) => t.alias_region(d, local, start..end, rights),
            Request::Carve(local, start, end, rights) => t.carve_region(d, local, start..end, rights),
            Request::Send(local, target) => t.send(d, local, target),
            Request::WayBack(local) => t.create_revoke_capa(d, local),
            Request::Revoke(local) => t.revoke(d, local).map(|()| 0),
        };
        if let Request::Revoke(_) = request {
            self.drop_closed()?;
        }
        self.settle()?;
        Ok(answer)
    }

    /// The platform's domain, on core 0, with all pages in its slot 0.
    fn start(&mut self) -> Done<()> {
        let opened = self.tables.open_domain(1)?;
        let d = self.opened(opened);
        self.running[0] = Some(d);
        self.tables.create_root_region(d, 0..PAGES as u64, Rights::READ | Rights::WRITE | Rights::EXEC)?;
        self.settle()
    }

    /// A domain on this core, below the one on core `manager`, which has its Management capability in the next slot.
    fn open_on(&mut self, core: usize, manager: usize) -> Done<()> {
        let opened = self.tables.open_under(self.running[manager].ok_or(Refusal::NoDomain)?, 1 << core)?;
        self.running[core] = Some(self.opened(opened));
        self.settle()
    }

    /// The program on this core makes a part of its slot 0 and lends it through slot `target`. Answers the slot of a RegionRevoke that it keeps.
    fn lend(&mut self, core: usize, part: Request, target: u64) -> Done<u64> {
        let part = self.trap(core, part)??;
        let way_back = self.trap(core, Request::WayBack(part))??;
        self.trap(core, Request::Send(part, target))??;
        Ok(way_back)
    }

    /// The programs on cores 1 and 2 are stopped, and the domain on core 1 is closed with the one below it, by the platform's slot 1.
    fn end_contract(&mut self) -> Done<()> {
        for d in self.running.into_iter().skip(1).flatten() {
            self.tables.set_core_map(d, 0)?;
        }
        self.trap(0, Request::Revoke(1))??;
        Ok(())
    }
}

fn steps(log: &mut String) -> Done<()> {
    let mut memory = [0; SIZES.memory()];
    *log += "the platform starts\n";
    let mut m = Monitor::make(&mut memory, log)?;
    m.start()?;
    m.say("a supplier on core 1 is lent 16 to 32, to be wiped when they come back");
    m.open_on(1, 0)?;
    m.lend(0, Request::Carve(0, 16, 32, Rights::READ | Rights::WRITE | Rights::CLEANUP), 1)?;
    m.say("it lends 16 to 20 to its helper on core 2");
    m.open_on(2, 1)?;
    m.lend(1, Request::Alias(0, 16, 20, Rights::READ), 1)?;
    let refused = m.trap(1, Request::Alias(0, 0, 4, Rights::READ))?.expect_err("0 to 4 are not the supplier's");
    m.say(format!("it asks for 0 to 4: {refused}"));
    m.memory[17] = 7;
    m.say("it writes into page 17, and its contract ends");
    m.end_contract()?;
    m.say(format!("page 17 has {}; another supplier gets the slot, and has nothing of the closed one's", m.memory[17]));
    m.open_on(1, 0)?;
    m.say("it is lent 40 to 44, and they are taken back");
    // The slot freed last is given first: the send above freed slot 2, which has the Management capability now.
    let way_back = m.lend(0, Request::Alias(0, 40, 44, Rights::READ), 2)?;
    m.trap(0, Request::Revoke(way_back))??;
    m.say("the platform starts");
    Monitor::make(&mut memory, log)?.start()
}

fn main() -> ExitCode {
    let mut log = String::new();
    let ended = steps(&mut log);
    if let Err(error) = io::stdout().write_all(log.as_bytes()) {
        eprintln!("monitor: standard output: {error}");
        return ExitCode::FAILURE;
    }
    match ended {
        Ok(()) => ExitCode::SUCCESS,
        Err(error) => {
            eprintln!("monitor: {error}");
            ExitCode::FAILURE
        }
    }
}
