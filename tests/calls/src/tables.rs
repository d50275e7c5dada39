//! Jumps through a table. For a choice among many the compiler lists places of the function, as distances from the list's own start, and
//! the jump goes to one of them:
//!
//! ```text
//! lea    0x0(%rip),%rdx              the table, in .rodata.FUNCTION
//! movslq (%rdx,%rax,4),%rax          one distance of it
//! add    %rdx,%rax
//! jmp    *%rax
//! ```
//!
//! Here it is seen where such a jump has its goal from, and what `objdump -hr` says of the table. Whatever looks otherwise is no table.

use std::collections::HashMap;

use crate::listing::{name_and_operands, symbol_and_more, Function, Instruction};

/// The bytes of an entry.
const ENTRY: u64 = 4;

/// A table as a jump uses it.
#[derive(Debug, PartialEq)]
pub struct Table {
    pub section: String,
    /// Where it starts in its section.
    pub start: u64,
    /// The addresses of the instruction that loads its place, and of the jump.
    pub loaded: u64,
    pub jump: u64,
}

impl Table {
    /// The table that the goal of this jump is taken from, if the instructions just before show it.
    pub fn of_jump(function: &Function, at: usize) -> Option<Table> {
        let jump = &function.instructions[at];
        let goal = match name_and_operands(&jump.text) {
            ("jmp", operands) => operands.strip_prefix("*%")?,
            _ => return None,
        };
        let mut before = function.instructions[..at].iter().rev();
        let base = step(&mut before, &[goal], |it| it.adds_to(goal))?;
        step(&mut before, &[goal, base], |it| it.loads(base, goal))?;
        let (loaded, linked) = step(&mut before, &[base], |it| it.places(base))?;
        let (section, more) = symbol_and_more(linked)?;
        Some(Table {
            section: section.to_string(),
            // The four bytes that the linker fills count from their own end.
            start: u64::try_from(more + 4).ok()?,
            loaded,
            jump: jump.address,
        })
    }

    /// Whether whoever came to this address would be at the jump without the table.
    pub fn is_bypassed_at(&self, address: u64) -> bool {
        self.loaded < address && address <= self.jump
    }
}

/// Goes back to the instruction that is looked for. All that are passed leave these registers alone.
fn step<'a, Found>(
    before: &mut impl Iterator<Item = &'a Instruction>,
    kept: &[&str],
    looked_for: impl Fn(&'a Instruction) -> Option<Found>,
) -> Option<Found> {
    for instruction in before {
        if let Some(found) = looked_for(instruction) {
            return Some(found);
        }
        if !instruction.keeps(kept) {
            return None;
        }
    }
    None
}

impl Instruction {
    /// The other register, if this is its sum with the goal: `add %rdx,%rax`.
    fn adds_to(&self, goal: &str) -> Option<&str> {
        let (base, to) = self.operands_of("add")?.split_once(',')?;
        let base = base.strip_prefix('%')?;
        (to.strip_prefix('%') == Some(goal) && base != goal).then_some(base)
    }

    /// Whether this loads an entry: `movslq (%rdx,%rax,4),%rax`.
    fn loads(&self, base: &str, goal: &str) -> Option<()> {
        let operands = self.operands_of("movslq")?;
        let index = operands.strip_prefix(&format!("(%{base},%"))?;
        let (index, rest) = index.split_once(',')?;
        let is_register = index.chars().all(|c| c.is_ascii_alphanumeric());
        (is_register && rest == format!("4),%{goal}")).then_some(())
    }

    /// Where this stands and what the linker fills in, if it loads a place that it names.
    fn places(&self, base: &str) -> Option<(u64, &str)> {
        let loads = self.operands_of("lea")? == format!("0x0(%rip),%{base}");
        let note = self.note.as_deref().filter(|_| loads)?;
        let (kind, linked) = note.rsplit_once('\t')?;
        kind.ends_with(" R_X86_64_PC32")
            .then_some((self.address, linked))
    }

    fn operands_of(&self, wanted: &str) -> Option<&str> {
        let (name, operands) = name_and_operands(&self.text);
        (name == wanted).then_some(operands)
    }

    /// Whether this is one of a few instructions that write their last operand and nothing else, and names none of the registers.
    fn keeps(&self, registers: &[&str]) -> bool {
        const PLAIN: [&str; 17] = [
            "mov", "movl", "movq", "movw", "movb", "movzbl", "movzwl", "lea", "xor", "or", "and",
            "add", "sub", "shl", "shr", "cmp", "test",
        ];
        let (name, operands) = name_and_operands(&self.text);
        let named = |part: &str| {
            let end = part.find(|c: char| !c.is_ascii_alphanumeric());
            let part = &part[..end.unwrap_or(part.len())];
            registers.iter().any(|other| whole(part) == whole(other))
        };
        PLAIN.contains(&name)
            && self.text.starts_with(name)
            && !operands.split('%').skip(1).any(named)
    }
}

/// The 64 bits that a register is a part of.
fn whole(register: &str) -> &str {
    const NAMES: [[&str; 5]; 8] = [
        ["rax", "eax", "ax", "al", "ah"],
        ["rbx", "ebx", "bx", "bl", "bh"],
        ["rcx", "ecx", "cx", "cl", "ch"],
        ["rdx", "edx", "dx", "dl", "dh"],
        ["rsi", "esi", "si", "sil", "sil"],
        ["rdi", "edi", "di", "dil", "dil"],
        ["rbp", "ebp", "bp", "bpl", "bpl"],
        ["rsp", "esp", "sp", "spl", "spl"],
    ];
    match NAMES.iter().find(|names| names.contains(&register)) {
        Some(names) => names[0],
        None => register.trim_end_matches(['d', 'w', 'b']),
    }
}

/// What `objdump -hr` prints of an archive: the size of each section, and what the linker is to put in.
#[derive(Debug, Default)]
pub struct Data {
    pub members: usize,
    sections: HashMap<(usize, String), Section>,
}

#[derive(Debug, Default)]
struct Section {
    size: u64,
    entries: Vec<Entry>,
}

#[derive(Debug)]
struct Entry {
    offset: u64,
    kind: String,
    linked: String,
}

impl Data {
    pub fn read(text: &str) -> Data {
        let mut data = Data::default();
        let mut noted = String::new();
        for line in text.lines() {
            if line.contains(":     file format ") {
                data.members += 1;
                noted.clear();
            } else if let Some(rest) = line.strip_prefix("RELOCATION RECORDS FOR [") {
                noted = rest.trim_end_matches("]:").to_string();
            } else if let Some((name, size)) = section_head(line) {
                data.section(name).size = size;
            } else if let Some(entry) = entry(line) {
                data.section(&noted).entries.push(entry);
            }
        }
        data
    }

    fn section(&mut self, name: &str) -> &mut Section {
        let key = (self.members, name.to_string());
        self.sections.entry(key).or_default()
    }

    /// All places that the tables of a section lead to, as addresses of the function's section. Each table starts at one of the
    /// `starts`. None, if the section holds anything but places of the function's section.
    pub fn goals(&self, function: &Function, section: &str, starts: &[u64]) -> Option<Vec<u64>> {
        let section = self.sections.get(&(function.member, section.to_string()))?;
        if section.size != ENTRY * section.entries.len() as u64 {
            return None;
        }
        let mut goals = Vec::new();
        for (at, entry) in section.entries.iter().enumerate() {
            let (symbol, more) = symbol_and_more(&entry.linked)?;
            let in_its_place = entry.offset == ENTRY * at as u64;
            if !in_its_place || entry.kind != "R_X86_64_PC32" || symbol != function.section {
                return None;
            }
            let start = starts
                .iter()
                .filter(|&&start| start <= entry.offset)
                .max()?;
            // The linker counts from the entry, and the jump from the table's start.
            let past_start = i64::try_from(entry.offset - start).ok()?;
            goals.push(u64::try_from(more.checked_sub(past_start)?).ok()?);
        }
        Some(goals)
    }
}

/// A line of the table of sections: `  5 .rodata.run   0000001c  0000000000000000 ...`.
fn section_head(line: &str) -> Option<(&str, u64)> {
    let words: Vec<&str> = line.split_whitespace().collect();
    let [number, name, size, _, _, _, alignment] = words[..] else {
        return None;
    };
    let is_head = number.parse::<u32>().is_ok() && alignment.starts_with("2**");
    let size = u64::from_str_radix(size, 16).ok()?;
    is_head.then_some((name, size))
}

/// What the linker is to put at one place: `0000000000000004 R_X86_64_PC32     .text.run+0x0000000000000054`.
fn entry(line: &str) -> Option<Entry> {
    let (offset, rest) = line.split_once(' ')?;
    let (kind, linked) = rest.split_once(char::is_whitespace)?;
    kind.starts_with("R_X86_64_").then_some(())?;
    Some(Entry {
        offset: u64::from_str_radix(offset, 16).ok()?,
        kind: kind.to_string(),
        linked: linked.trim().to_string(),
    })
}

#[cfg(test)]
mod tests {
    use super::*;
    use crate::listing::Listing;

    /// A function of these instructions, the last of which is the jump. A line that starts with a tab is a note.
    fn table_of(lines: &[&str]) -> Option<Table> {
        let mut text = String::from(
            "one.o:     file format elf64-x86-64\nDisassembly of section .text.run:\n0000000000000000 <run>:\n",
        );
        for (at, line) in lines.iter().enumerate() {
            text += &match line.starts_with('\t') {
                true => format!("{line}\n"),
                false => format!("  {at:x}:\t{line}\n"),
            };
        }
        let listing = Listing::read(&text);
        let function = &listing.functions[0];
        Table::of_jump(function, function.instructions.len() - 1)
    }

    const LEA: &str = "lea    0x0(%rip),%rdx        # e0 <run+0xe0>";
    const NOTE: &str = "\t\t\tdc: R_X86_64_PC32\t.rodata.run+0x8";
    const LOAD: &str = "movslq (%rdx,%rax,4),%rax";
    const ADD: &str = "add    %rdx,%rax";
    const JUMP: &str = "jmp    *%rax";

    #[test]
    fn a_table_is_seen() {
        let table = table_of(&["mov    %edi,%eax", LEA, NOTE, LOAD, ADD, JUMP]);
        let wanted = Table {
            section: ".rodata.run".to_string(),
            start: 12,
            loaded: 1,
            jump: 5,
        };
        assert_eq!(table, Some(wanted));
        let tracked = table_of(&[LEA, NOTE, LOAD, ADD, "notrack jmp *%rax"]);
        assert_eq!(tracked.map(|table| table.start), Some(12));
    }

    #[test]
    fn what_leaves_the_registers_alone_may_stand_between() {
        let index = "mov    %r9d,%eax";
        let other = "mov    %ecx,%ebx";
        let lines = [LEA, NOTE, index, LOAD, other, ADD, other, JUMP];
        assert!(table_of(&lines).is_some());
    }

    #[test]
    fn what_does_not_may_not() {
        let between = [
            "mov    %rbx,%rax",
            "mov    %bl,%ah",
            "xor    %eax,%eax",
            "call   10 <run+0x10>",
            "je     10 <run+0x10>",
            "cpuid",
            "mul    %rcx",
            "pop    %rax",
            "rep movl $0x1,(%rdi)",
        ];
        for line in between {
            assert_eq!(table_of(&[LEA, NOTE, LOAD, ADD, line, JUMP]), None);
            assert_eq!(table_of(&[LEA, NOTE, LOAD, line, ADD, JUMP]), None);
        }
        for line in ["mov    %rbx,%rdx", "inc    %dl", "syscall"] {
            assert_eq!(table_of(&[LEA, NOTE, LOAD, line, ADD, JUMP]), None);
            assert_eq!(table_of(&[LEA, NOTE, line, LOAD, ADD, JUMP]), None);
        }
    }

    #[test]
    fn what_looks_otherwise_is_no_table() {
        for lines in [
            &[JUMP][..],
            &[ADD, JUMP],
            &[LOAD, ADD, JUMP],
            &[LEA, LOAD, ADD, JUMP],
            &[LEA, NOTE, ADD, JUMP],
            &[LEA, NOTE, LOAD, JUMP],
            &[LEA, NOTE, LOAD, ADD, "jmp    *%rdx"],
            &[LEA, NOTE, LOAD, ADD, "jmp    *(%rax)"],
            &[LEA, NOTE, LOAD, ADD, "call   *%rax"],
            &[LEA, NOTE, LOAD, "add    %rcx,%rax", JUMP],
            &[LEA, NOTE, LOAD, "add    $0x4,%rax", JUMP],
            &[LEA, NOTE, "movslq (%rdx,%rax,8),%rax", ADD, JUMP],
            &[LEA, NOTE, "movslq 0x4(%rdx,%rax,4),%rax", ADD, JUMP],
            &[LEA, NOTE, "movslq (%rcx,%rax,4),%rax", ADD, JUMP],
            &[LEA, NOTE, "movslq (%rdx,%rax,4),%rcx", ADD, JUMP],
            &["lea    0x0(%rip),%rcx", NOTE, LOAD, ADD, JUMP],
            &["lea    0x8(%rdi),%rdx", LOAD, ADD, JUMP],
            &[
                LEA,
                "\t\t\tdc: R_X86_64_GOTPCREL\tother-0x4",
                LOAD,
                ADD,
                JUMP,
            ],
        ] {
            assert_eq!(table_of(lines), None, "{lines:?}");
        }
    }

    #[test]
    fn a_register_is_known_by_each_of_its_parts() {
        for (part, wanted) in [
            ("ah", "rax"),
            ("edx", "rdx"),
            ("sil", "rsi"),
            ("r9", "r9"),
            ("r10d", "r10"),
            ("r9b", "r9"),
            ("r15w", "r15"),
        ] {
            assert_eq!(whole(part), wanted);
        }
        assert_ne!(whole("r1"), whole("r10"));
    }
}
