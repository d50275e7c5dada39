//! The judgement over a listing: which function calls which, and what of it may not be.

use std::collections::{BTreeMap, BTreeSet, HashMap};

use crate::listing::{Function, Goal, Jump, Listing};
use crate::tables::{Data, Table};

/// What may be, though it would be a fault otherwise.
#[derive(Debug, Default)]
pub struct Allowed {
    /// Functions outside the archive, which call nothing back.
    pub outside: Vec<String>,
    /// Functions that may be on a ring of calls. A ring with any other function on it is a fault. So is
    /// the name of a function that is there and on no ring, and no ring at all where there are names.
    /// A function may be missing: the compiler may have put it into those that call it.
    pub in_rings: Vec<String>,
}

/// What was found out.
#[derive(Debug, Default)]
pub struct Judgement {
    /// One line for each thing that may not be.
    pub faults: Vec<String>,
    /// The calls from one function of the archive to another, each pair once.
    pub calls: usize,
    /// The functions on the longest chain of calls, the outermost first. Calls within a ring are left out.
    pub longest: Vec<String>,
    /// How many functions call each of the allowed ones outside the archive.
    pub outside: BTreeMap<String, usize>,
    /// The functions on rings, those that may be.
    pub on_rings: Vec<String>,
    /// The jumps that a table keeps in their function.
    pub by_table: usize,
}

/// Judges all calls, with what is known of the archive's tables.
pub fn judge(listing: &Listing, data: &Data, allowed: &Allowed) -> Judgement {
    let mut judgement = Judgement::default();
    let places = Places::of(&listing.functions, data);
    let mut calls = Vec::new();
    for at in 0..listing.functions.len() {
        calls.push(places.calls_of(at, &allowed.outside, &mut judgement));
    }
    judgement.calls = calls.iter().map(BTreeSet::len).sum();
    let reached: Vec<BTreeSet<usize>> = (0..calls.len()).map(|at| reached(&calls, at)).collect();
    judge_rings(listing, &calls, &reached, allowed, &mut judgement);
    // Without the calls within rings every function comes after those that it calls.
    for (at, calls) in calls.iter_mut().enumerate() {
        calls.retain(|&to| !reached[to].contains(&at));
    }
    let longest = longest_chain(&calls, &innermost_first(&calls));
    judgement.longest = names(listing, &longest);
    judgement
}

fn names(listing: &Listing, functions: &[usize]) -> Vec<String> {
    let name = |&at: &usize| listing.functions[at].name.clone();
    functions.iter().map(name).collect()
}

/// Every function that leads back to itself must be named for it, and of the functions that are there only such ones may be.
fn judge_rings(
    listing: &Listing,
    calls: &[BTreeSet<usize>],
    reached: &[BTreeSet<usize>],
    allowed: &Allowed,
    judgement: &mut Judgement,
) {
    let on_ring: Vec<usize> = (0..calls.len())
        .filter(|&at| reached[at].contains(&at))
        .collect();
    let named = |at: usize| allowed.in_rings.contains(&listing.functions[at].name);
    if let Some(&at) = on_ring.iter().find(|&&at| !named(at)) {
        let ring = names(listing, &ring_through(calls, at)).join(" -> ");
        judgement.faults.push(format!("ring: {ring}"));
    }
    let on_ring = names(listing, &on_ring);
    let is_there = |name: &String| listing.functions.iter().any(|it| it.name == *name);
    for name in &allowed.in_rings {
        if on_ring.contains(name) {
            judgement.on_rings.push(name.clone());
        } else if is_there(name) {
            let fault = format!("named for a ring, and on none: {name}");
            judgement.faults.push(fault);
        }
    }
    if judgement.on_rings.is_empty() && !allowed.in_rings.is_empty() {
        let fault = "functions are named for a ring, and none is on one";
        judgement.faults.push(fault.to_string());
    }
}

/// Where each function is found.
struct Places<'a> {
    functions: &'a [Function],
    data: &'a Data,
    by_name: HashMap<&'a str, Vec<usize>>,
}

impl<'a> Places<'a> {
    fn of(functions: &'a [Function], data: &'a Data) -> Places<'a> {
        let mut by_name: HashMap<&str, Vec<usize>> = HashMap::new();
        for (at, function) in functions.iter().enumerate() {
            by_name.entry(&function.name).or_default().push(at);
        }
        Places {
            functions,
            data,
            by_name,
        }
    }

    /// All functions that this one goes to. What may not be is told to the judgement.
    fn calls_of(
        &self,
        at: usize,
        allowed: &[String],
        judgement: &mut Judgement,
    ) -> BTreeSet<usize> {
        let function = &self.functions[at];
        let mut calls = BTreeSet::new();
        let mut outside = BTreeSet::new();
        for jump in &function.jumps {
            let fault = match &jump.goal {
                Goal::Unknown => match self.judge_table(at, jump) {
                    Ok(()) => {
                        judgement.by_table += 1;
                        continue;
                    }
                    Err(fault) => fault,
                },
                Goal::System => "it leaves the program",
                Goal::Address(address) => match self.at_address(at, &function.section, *address) {
                    // Within the function itself a jump is no call; back to its first byte it may be one.
                    Some(to) if to == at && *address != function.start => continue,
                    Some(to) if to == at && !jump.text.starts_with("call") => continue,
                    Some(to) => {
                        calls.insert(to);
                        continue;
                    }
                    None => "there is no function",
                },
                Goal::Symbol(name, more) => match self.at_symbol(at, name, *more) {
                    found if !found.is_empty() => {
                        calls.extend(found);
                        continue;
                    }
                    _ if allowed.contains(name) => {
                        outside.insert(name.clone());
                        continue;
                    }
                    _ => "it leaves the archive",
                },
            };
            let (name, text, goal) = (&function.name, &jump.text, &jump.goal);
            judgement
                .faults
                .push(format!("{fault}: {name}: {text} ({goal:?})"));
        }
        for name in outside {
            *judgement.outside.entry(name).or_default() += 1;
        }
        calls.extend(self.runs_into(at));
        calls
    }

    /// A jump whose goal isn't written in it: whether it can be seen that it goes by a table and stays in the function.
    fn judge_table(&self, at: usize, jump: &Jump) -> Result<(), &'static str> {
        let function = &self.functions[at];
        let unknown = "the goal is not known";
        let table = Table::of_jump(function, jump.at).ok_or(unknown)?;
        let of_function = function.section == format!(".text.{}", function.name)
            && table.section == format!(".rodata.{}", function.name);
        if !of_function {
            return Err(unknown);
        }
        // All tables of the function, for the section has the entries of all of them.
        let tables = || {
            let found = function
                .jumps
                .iter()
                .map(|jump| Table::of_jump(function, jump.at));
            found
                .flatten()
                .filter(|other| other.section == table.section)
        };
        let starts: Vec<u64> = tables().map(|table| table.start).collect();
        let goals = self.data.goals(function, &table.section, &starts);
        let goals = goals.ok_or("a table holds what is no place of the function")?;
        let is_inside = |goal: &u64| function.instructions.iter().any(|it| it.address == *goal);
        if !goals.iter().all(is_inside) {
            return Err("a table leads out of the function");
        }
        let bypassed = |goal: u64| tables().any(|table| table.is_bypassed_at(goal));
        if goals.into_iter().chain(self.goals_in(at)).any(bypassed) {
            return Err("a jump by a table can be reached without its table");
        }
        Ok(())
    }

    /// All addresses of a function's section that any jump or call of its member names.
    fn goals_in(&self, at: usize) -> Vec<u64> {
        let here = &self.functions[at];
        let mut goals = Vec::new();
        for function in self.functions.iter().filter(|it| it.member == here.member) {
            for jump in &function.jumps {
                goals.extend(match &jump.goal {
                    Goal::Address(address) => {
                        (function.section == here.section).then_some(*address)
                    }
                    Goal::Symbol(name, more) => {
                        let section = (*name == here.section).then_some(0);
                        let named = self.functions.iter().find(|it| {
                            it.member == here.member
                                && it.section == here.section
                                && it.name == *name
                        });
                        let from = section.or(named.map(|it| it.start));
                        from.and_then(|from| from.checked_add_signed(*more))
                    }
                    Goal::Unknown | Goal::System => None,
                });
            }
        }
        goals
    }

    /// The function of the same member with the greatest start that is not past the address.
    fn at_address(&self, from: usize, section: &str, address: u64) -> Option<usize> {
        let member = self.functions[from].member;
        let here = |at: &usize| {
            let function = &self.functions[*at];
            function.member == member && function.section == section && function.start <= address
        };
        let all = 0..self.functions.len();
        all.filter(here).max_by_key(|&at| self.functions[at].start)
    }

    /// What a symbol names: a place in a section, or all functions of that name, those of the same member first.
    /// Where several members have a function of one name, all are taken: that can add a ring and can't hide one.
    fn at_symbol(&self, from: usize, name: &str, more: i64) -> Vec<usize> {
        let member = self.functions[from].member;
        if name.starts_with('.') {
            let address = u64::try_from(more).ok();
            let found = address.and_then(|address| self.at_address(from, name, address));
            return found.into_iter().collect();
        }
        let all = self.by_name.get(name).cloned().unwrap_or_default();
        let near: Vec<usize> = all
            .iter()
            .copied()
            .filter(|&at| self.functions[at].member == member)
            .collect();
        match near.is_empty() {
            true => all,
            false => near,
        }
    }

    /// The next function of the section, if nothing ends this one before it.
    fn runs_into(&self, at: usize) -> Option<usize> {
        let (this, next) = (&self.functions[at], self.functions.get(at + 1)?);
        let adjacent = next.member == this.member && next.section == this.section;
        (adjacent && !this.ends).then_some(at + 1)
    }
}

/// All functions that the calls of this one lead to, itself only where they lead back to it.
fn reached(calls: &[BTreeSet<usize>], from: usize) -> BTreeSet<usize> {
    let mut reached = calls[from].clone();
    let mut waiting: Vec<usize> = reached.iter().copied().collect();
    while let Some(at) = waiting.pop() {
        waiting.extend(calls[at].iter().filter(|&&to| reached.insert(to)));
    }
    reached
}

/// A shortest ring through a function that is on one, with that function first and last.
fn ring_through(calls: &[BTreeSet<usize>], start: usize) -> Vec<usize> {
    let mut chains = vec![vec![start]];
    let mut met = BTreeSet::new();
    loop {
        let mut longer = Vec::new();
        for chain in chains {
            for &to in &calls[chain[chain.len() - 1]] {
                let chain = [chain.clone(), vec![to]].concat();
                if to == start {
                    return chain;
                }
                if met.insert(to) {
                    longer.push(chain);
                }
            }
        }
        chains = longer;
    }
}

/// All functions, each after those that it calls, where there is no ring.
fn innermost_first(calls: &[BTreeSet<usize>]) -> Vec<usize> {
    let mut order = Vec::new();
    let mut taken = vec![false; calls.len()];
    while order.len() < calls.len() {
        let ready = |at: &usize| !taken[*at] && calls[*at].iter().all(|&to| taken[to]);
        let more: Vec<usize> = (0..calls.len()).filter(ready).collect();
        assert!(!more.is_empty(), "there is no ring");
        more.iter().for_each(|&at| taken[at] = true);
        order.extend(more);
    }
    order
}

/// The longest chain of calls, where there is no ring.
fn longest_chain(calls: &[BTreeSet<usize>], order: &[usize]) -> Vec<usize> {
    let mut chains: Vec<Vec<usize>> = vec![Vec::new(); calls.len()];
    for &at in order {
        let longest = calls[at].iter().max_by_key(|&&to| chains[to].len());
        let below = longest.map(|&to| chains[to].clone()).unwrap_or_default();
        chains[at] = [vec![at], below].concat();
    }
    chains.into_iter().max_by_key(Vec::len).unwrap_or_default()
}

#[cfg(test)]
mod tests {
    use super::*;
    use crate::listing::Instruction;

    /// A listing of functions of two bytes each in one section, with one instruction of each body given.
    fn listing(bodies: &[(&str, &str)]) -> Listing {
        let mut text =
            String::from("one.o:     file format elf64-x86-64\nDisassembly of section .text:\n");
        for (at, (name, body)) in bodies.iter().enumerate() {
            let start = 16 * at;
            text += &format!(
                "{start:016x} <{name}>:\n  {start:x}:\t{body}\n  {:x}:\tret\n",
                start + 5
            );
        }
        Listing::read(&text)
    }

    fn faults(bodies: &[(&str, &str)]) -> Vec<String> {
        faults_with_rings(bodies, &[])
    }

    fn faults_with_rings(bodies: &[(&str, &str)], in_rings: &[&str]) -> Vec<String> {
        let allowed = Allowed {
            outside: vec!["memset".to_string()],
            in_rings: in_rings.iter().map(|name| name.to_string()).collect(),
        };
        judge(&listing(bodies), &Data::default(), &allowed).faults
    }

    #[test]
    fn a_chain_has_no_fault() {
        let bodies = [
            ("a", "call   10 <b>"),
            ("b", "call   20 <c>"),
            ("c", "jmp    22 <c+0x2>"),
        ];
        let judgement = judge(&listing(&bodies), &Data::default(), &Allowed::default());
        assert!(judgement.faults.is_empty(), "{judgement:?}");
        assert_eq!(judgement.longest, ["a", "b", "c"]);
        assert_eq!(judgement.calls, 2);
    }

    #[test]
    fn a_ring_is_named() {
        let bodies = [
            ("a", "call   10 <b>"),
            ("b", "jmp    20 <c>"),
            ("c", "je     10 <b>"),
        ];
        assert_eq!(faults(&bodies), ["ring: b -> c -> b"]);
        assert_eq!(faults(&[("a", "call   0 <a>")]), ["ring: a -> a"]);
    }

    #[test]
    fn a_ring_of_named_functions_may_be() {
        let bodies = [
            ("a", "call   10 <b>"),
            ("b", "jmp    20 <c>"),
            ("c", "je     10 <b>"),
        ];
        assert!(faults_with_rings(&bodies, &["b", "c"]).is_empty());
        assert!(faults_with_rings(&[("a", "call   0 <a>")], &["a"]).is_empty());
    }

    /// The last one of three calls the first, and only two are named.
    #[test]
    fn a_ring_that_leaves_the_named_functions_is_a_fault() {
        let bodies = [
            ("a", "call   10 <b>\n   2:\tcall   0 <a>"),
            ("b", "call   20 <c>\n  12:\tcall   0 <a>"),
            ("c", "jmp    0 <a>"),
        ];
        let faults = faults_with_rings(&bodies, &["a", "b"]);
        assert_eq!(faults, ["ring: c -> a -> b -> c"]);
    }

    #[test]
    fn a_name_without_a_ring_is_a_fault() {
        let bodies = [("a", "call   10 <b>"), ("b", "call   10 <b>")];
        let faults = faults_with_rings(&bodies, &["a", "b"]);
        assert_eq!(faults, ["named for a ring, and on none: a"]);
    }

    /// It may have been put into its callers. But some ring there must be.
    #[test]
    fn a_named_function_may_be_missing() {
        let bodies = [("a", "call   10 <b>"), ("b", "call   10 <b>")];
        assert!(faults_with_rings(&bodies, &["b", "d"]).is_empty());
        let faults = faults_with_rings(&[("a", "ret")], &["b", "d"]);
        assert_eq!(
            faults,
            ["functions are named for a ring, and none is on one"]
        );
    }

    #[test]
    fn a_loop_is_no_ring() {
        assert!(faults(&[("a", "jne    0 <a>")]).is_empty());
    }

    #[test]
    fn what_leaves_is_named() {
        let leaves = "call   5 <a+0x5>\n\t\t\t1: R_X86_64_PLT32\tputs-0x4";
        assert!(faults(&[("a", leaves)])[0].starts_with("it leaves the archive: a"));
        let allowed = "call   5 <a+0x5>\n\t\t\t1: R_X86_64_PLT32\tmemset-0x4";
        assert!(faults(&[("a", allowed)]).is_empty());
        assert!(faults(&[("a", "call   *%rax")])[0].starts_with("the goal is not known: a"));
        assert!(faults(&[("a", "syscall")])[0].starts_with("it leaves the program: a"));
    }

    #[test]
    fn running_into_the_next_function_is_a_call() {
        let text = "one.o:     file format elf64-x86-64\nDisassembly of section .text:\n\
                    0000000000000000 <a>:\n   0:\tinc    %eax\n\
                    0000000000000010 <b>:\n  10:\tjmp    0 <a>\n";
        let faults = judge(&Listing::read(text), &Data::default(), &Allowed::default()).faults;
        assert_eq!(faults, ["ring: a -> b -> a"]);
    }

    #[test]
    fn a_place_in_another_section_is_found() {
        let text = "one.o:     file format elf64-x86-64\nDisassembly of section .text.a:\n\
                    0000000000000000 <a>:\n   0:\tcall   5 <a+0x5>\n\t\t\t1: R_X86_64_PLT32\t.text.b+0xc\n   5:\tret\n\
                    Disassembly of section .text.b:\n\
                    0000000000000000 <b>:\n   0:\tret\n0000000000000010 <c>:\n  10:\tret\n";
        let judgement = judge(&Listing::read(text), &Data::default(), &Allowed::default());
        assert_eq!(judgement.longest, ["a", "c"]);
    }

    /// A function `run` that jumps by a table, after what stands there before it, and another function in a section of its own and one
    /// in the same section. Its instructions are at 0, 7, b, e, 10 and 12.
    fn by_table(before: &str) -> Listing {
        let text = format!(
            "one.o:     file format elf64-x86-64\nDisassembly of section .text.other:\n\
             0000000000000000 <other>:\n{before}   5:\tret\n\
             Disassembly of section .text.run:\n0000000000000000 <run>:\n\
             \x20  0:\tlea    0x0(%rip),%rdx        # 7 <run+0x7>\n\t\t\t3: R_X86_64_PC32\t.rodata.run-0x4\n\
             \x20  7:\tmovslq (%rdx,%rdi,4),%rax\n   b:\tadd    %rdx,%rax\n   e:\tjmp    *%rax\n\
             \x20 10:\tinc    %eax\n  12:\tret\n\
             0000000000000020 <next>:\n  20:\tret\n"
        );
        Listing::read(&text)
    }

    /// What objdump says of a table with these entries, and of its size.
    fn table(size: u64, entries: &[&str]) -> Data {
        let mut text = format!(
            "one.o:     file format elf64-x86-64\nSections:\n\
             \x20 5 .rodata.run   {size:08x}  0000000000000000  0000000000000000  000000dc  2**2\n\
             RELOCATION RECORDS FOR [.rodata.run]:\nOFFSET           TYPE              VALUE\n"
        );
        for (at, entry) in entries.iter().enumerate() {
            text += &format!("{:016x} {entry}\n", 4 * at);
        }
        text += "\nRELOCATION RECORDS FOR [.eh_frame]:\n0000000000000020 R_X86_64_PC32     .text.other\n";
        Data::read(&text)
    }

    fn table_faults(listing: &Listing, data: &Data) -> Vec<String> {
        let judgement = judge(listing, data, &Allowed::default());
        assert_eq!(judgement.by_table, usize::from(judgement.faults.is_empty()));
        let what = |fault: &String| fault.split(": ").next().unwrap_or("").to_string();
        judgement.faults.iter().map(what).collect()
    }

    const TO_10: &str = "R_X86_64_PC32     .text.run+0x0000000000000010";
    const TO_12: &str = "R_X86_64_PC32     .text.run+0x0000000000000016";

    #[test]
    fn a_table_of_places_in_the_function_is_no_fault() {
        let data = table(8, &[TO_10, TO_12]);
        assert!(table_faults(&by_table(""), &data).is_empty());
    }

    #[test]
    fn a_table_that_leads_out_is_a_fault() {
        let holds = ["a table holds what is no place of the function"];
        let leads = ["a table leads out of the function"];
        for (entry, wanted) in [
            ("R_X86_64_PC32     .text.other+0x0000000000000004", &holds),
            ("R_X86_64_PC32     other+0x0000000000000004", &holds),
            ("R_X86_64_PLT32    .text.run+0x0000000000000016", &holds),
            ("R_X86_64_64       .text.run+0x0000000000000016", &holds),
            ("R_X86_64_PC32     .text.run-0x0000000000000004", &holds),
            // the function after it, the middle of an instruction, past all
            ("R_X86_64_PC32     .text.run+0x0000000000000024", &leads),
            ("R_X86_64_PC32     .text.run+0x0000000000000015", &leads),
            ("R_X86_64_PC32     .text.run+0x0000000000000400", &leads),
        ] {
            let data = table(8, &[TO_10, entry]);
            assert_eq!(table_faults(&by_table(""), &data), wanted, "{entry}");
        }
    }

    #[test]
    fn a_table_that_is_not_all_places_is_a_fault() {
        let wanted = ["a table holds what is no place of the function"];
        for data in [
            Data::default(),
            table(12, &[TO_10, TO_12]),
            table(4, &[TO_10, TO_12]),
        ] {
            assert_eq!(table_faults(&by_table(""), &data), wanted);
        }
    }

    #[test]
    fn a_way_past_the_table_is_a_fault() {
        let wanted = ["a jump by a table can be reached without its table"];
        let data = table(8, &[TO_10, TO_12]);
        for past in [
            "   0:\tjmp    5 <other+0x5>\n\t\t\t1: R_X86_64_PC32\t.text.run+0xa\n",
            "   0:\tjmp    5 <other+0x5>\n\t\t\t1: R_X86_64_PC32\trun+0x7\n",
        ] {
            assert_eq!(table_faults(&by_table(past), &data), wanted);
        }
        let start = "   0:\tjmp    5 <other+0x5>\n\t\t\t1: R_X86_64_PLT32\trun-0x4\n";
        assert!(table_faults(&by_table(start), &data).is_empty());
        let to_itself = "R_X86_64_PC32     .text.run+0x0000000000000012";
        let data = table(8, &[TO_10, to_itself]);
        assert_eq!(table_faults(&by_table(""), &data), wanted);
    }

    /// Each of two tables counts from its own start.
    #[test]
    fn two_tables_in_one_section_are_told_apart() {
        let mut listing = by_table("");
        let run = &mut listing.functions[1];
        let first = std::mem::take(&mut run.instructions);
        let jump = first
            .iter()
            .position(|it| it.text == "jmp    *%rax")
            .expect("it jumps");
        for (round, past) in [(0, 0), (1, 0x100)] {
            for it in &first {
                run.instructions.push(Instruction {
                    address: it.address + past,
                    text: it.text.clone(),
                    note: it.note.as_ref().map(|note| match round {
                        0 => note.clone(),
                        _ => note.replace("-0x4", "+0x4"),
                    }),
                });
            }
        }
        let again = first.len() + jump;
        run.jumps.push(Jump {
            at: again,
            text: "jmp    *%rax".to_string(),
            goal: Goal::Unknown,
        });
        let second = "R_X86_64_PC32     .text.run+0x0000000000000110";
        let faults = |data| judge(&listing, &data, &Allowed::default()).faults.len();
        assert_eq!(faults(table(12, &[TO_10, TO_12, second])), 0);
        // as if the third entry counted from the first table's start
        let wrong = "R_X86_64_PC32     .text.run+0x0000000000000118";
        assert_eq!(faults(table(12, &[TO_10, TO_12, wrong])), 2);
    }

    #[test]
    fn another_function_s_table_is_none() {
        let mut listing = by_table("");
        listing.functions[1].name = "ran".to_string();
        let data = table(8, &[TO_10, TO_12]);
        assert_eq!(table_faults(&listing, &data), ["the goal is not known"]);
    }
}
