//! What `objdump -dr --no-show-raw-insn` prints, as functions with every place where each of them goes elsewhere.

/// One function of one member of the archive.
#[derive(Debug)]
pub struct Function {
    pub member: usize,
    pub section: String,
    pub name: String,
    pub start: u64,
    pub instructions: Vec<Instruction>,
    pub jumps: Vec<Jump>,
    /// Whether what follows its last instruction is never reached.
    pub ends: bool,
}

/// One instruction, with what the linker is to put in.
#[derive(Debug)]
pub struct Instruction {
    pub address: u64,
    pub text: String,
    pub note: Option<String>,
}

/// An instruction that goes elsewhere: a call, or a jump with or without a condition.
#[derive(Debug)]
pub struct Jump {
    /// Which one of the function's instructions it is.
    pub at: usize,
    pub text: String,
    pub goal: Goal,
}

/// Where it goes.
#[derive(Debug, PartialEq)]
pub enum Goal {
    /// To this address of the same section.
    Address(u64),
    /// To so many bytes past a symbol: the linker puts it in.
    Symbol(String, i64),
    /// To what a register or the memory says.
    Unknown,
    /// Out of the program: into the system, or what is no instruction at all.
    System,
}

/// All functions of a listing, and how many members it has.
pub struct Listing {
    pub members: usize,
    pub functions: Vec<Function>,
}

impl Listing {
    pub fn read(text: &str) -> Listing {
        let mut listing = Listing {
            members: 0,
            functions: Vec::new(),
        };
        let mut section = "";
        for line in text.lines() {
            if line.contains(":     file format ") {
                listing.members += 1;
            } else if let Some(rest) = line.strip_prefix("Disassembly of section ") {
                section = rest.trim_end_matches(':');
            } else if let Some((start, name)) = function_head(line) {
                listing.functions.push(Function {
                    member: listing.members,
                    section: section.to_string(),
                    name: name.to_string(),
                    start,
                    instructions: Vec::new(),
                    jumps: Vec::new(),
                    ends: false,
                });
            } else if let Some(function) = listing.functions.last_mut() {
                function.take_line(line);
            }
        }
        listing
    }
}

impl Function {
    /// One line of the function's body: an instruction, or a note for the linker on the one above.
    fn take_line(&mut self, line: &str) {
        if let Some(note) = line.strip_prefix("\t\t\t") {
            self.take_note(note);
        } else if let Some((address, instruction)) = line.split_once(":\t") {
            if let Ok(address) = u64::from_str_radix(address.trim(), 16) {
                self.take_instruction(address, instruction);
            }
        }
    }

    fn take_note(&mut self, note: &str) {
        let Some(instruction) = self.instructions.last_mut() else {
            return;
        };
        instruction.note = Some(note.to_string());
        let read_last = self.instructions.len() - 1;
        let jump = self.jumps.last_mut().filter(|jump| jump.at == read_last);
        if let (Some(jump), Some(goal)) = (jump, linked_goal(note)) {
            jump.take_note(note, goal);
        }
    }

    fn take_instruction(&mut self, address: u64, instruction: &str) {
        let (name, operands) = name_and_operands(instruction);
        // Padding between functions says nothing about where the last one ends.
        let padding = name.starts_with("nop") || name == "int3" || instruction == "xchg   %ax,%ax";
        if !padding {
            self.ends = name.starts_with("ret") || name.starts_with("jmp") || name == "ud2";
        }
        let text = instruction.trim_end().to_string();
        if let Some(goal) = goal_of(name, operands) {
            self.jumps.push(Jump {
                at: self.instructions.len(),
                text: text.clone(),
                goal,
            });
        }
        self.instructions.push(Instruction {
            address,
            text,
            note: None,
        });
    }
}

impl Jump {
    /// A note belongs to a jump if it names the place that the jump left open.
    fn take_note(&mut self, note: &str, linked: Goal) {
        match self.goal {
            Goal::Address(_) => self.goal = linked,
            // Through the table of the linker: the place is known as well.
            Goal::Unknown if note.contains("_GOTPCREL") => self.goal = linked,
            _ => {}
        }
    }
}

/// The first line of a function: `0000000000000040 <name>:`.
fn function_head(line: &str) -> Option<(u64, &str)> {
    let (start, rest) = line.split_once(" <")?;
    let name = rest.strip_suffix(">:")?;
    Some((u64::from_str_radix(start, 16).ok()?, name))
}

/// The instruction's name without prefixes, and its operands without objdump's remark.
pub fn name_and_operands(instruction: &str) -> (&str, &str) {
    let prefixes = [
        "notrack", "bnd", "rep", "repz", "repnz", "lock", "data16", "cs", "ds", "es", "addr32",
    ];
    let mut rest = instruction.split('#').next().unwrap_or("").trim();
    loop {
        let (name, operands) = rest.split_once(char::is_whitespace).unwrap_or((rest, ""));
        if !prefixes.contains(&name) && !name.starts_with("rex") {
            return (name, operands.trim());
        }
        if operands.is_empty() {
            return (name, operands);
        }
        rest = operands.trim();
    }
}

/// Where an instruction goes, if it goes elsewhere at all.
fn goal_of(name: &str, operands: &str) -> Option<Goal> {
    match name {
        "syscall" | "sysenter" | "int" | "lcall" | "ljmp" | "iret" | "iretq" | "(bad)" => {
            return Some(Goal::System);
        }
        _ => {}
    }
    let goes = name.starts_with("call") || name.starts_with('j') || name.starts_with("loop");
    if !goes {
        return None;
    }
    let address = operands.split_whitespace().next().unwrap_or("");
    Some(match u64::from_str_radix(address, 16) {
        Ok(address) => Goal::Address(address),
        Err(_) => Goal::Unknown,
    })
}

/// A note for the linker, `1c: R_X86_64_PLT32\tmemset-0x4`: the four bytes that it fills count from their own end.
fn linked_goal(note: &str) -> Option<Goal> {
    let (_, linked) = note.rsplit_once('\t')?;
    let (name, more) = symbol_and_more(linked)?;
    Some(Goal::Symbol(name.to_string(), more + 4))
}

/// A symbol and how many bytes past it, `.text.run+0x48`.
pub fn symbol_and_more(linked: &str) -> Option<(&str, i64)> {
    let Some(at) = linked.rfind("+0x").max(linked.rfind("-0x")) else {
        return Some((linked, 0));
    };
    let number = i64::from_str_radix(&linked[at + 3..], 16).ok()?;
    let sign = if linked[at..].starts_with('-') { -1 } else { 1 };
    Some((&linked[..at], sign * number))
}

#[cfg(test)]
mod tests {
    use super::*;

    const TEXT: &str = "
In archive lib.a:

one.o:     file format elf64-x86-64


Disassembly of section .text:

0000000000000000 <a::first>:
   0:\tpush   %rbp
   1:\tje     9 <a::first+0x9>
   3:\tcall   8 <a::first+0x8>
\t\t\t4: R_X86_64_PLT32\tmemset-0x4
   8:\tpop    %rbp
   9:\tret
   a:\tnopw   0x0(%rax,%rax,1)

0000000000000010 <second>:
  10:\tnotrack jmp *%rax
  12:\tcall   *0x0(%rip)        # 18 <second+0x8>
\t\t\t14: R_X86_64_GOTPCRELX\tbcmp-0x4
  18:\tjmp    1d <second+0xd>
\t\t\t19: R_X86_64_PC32\t.text.other+0x1c
  1d:\tsyscall
  1f:\tje     10 <second>
  21:\tlea    0x0(%rip),%rax
\t\t\t24: R_X86_64_PC32\ttable-0x4
";

    fn symbol(name: &str, more: i64) -> Goal {
        Goal::Symbol(name.to_string(), more)
    }

    #[test]
    fn functions_and_their_jumps_are_read() {
        let listing = Listing::read(TEXT);
        assert_eq!(listing.members, 1);
        let [first, second] = &listing.functions[..] else {
            panic!("two functions");
        };
        assert_eq!((first.name.as_str(), first.start), ("a::first", 0));
        assert_eq!((second.section.as_str(), second.start), (".text", 16));
        let goals = |function: &Function| -> Vec<String> {
            let goals = function.jumps.iter().map(|jump| &jump.goal);
            goals.map(|goal| format!("{goal:?}")).collect()
        };
        let wanted = [Goal::Address(9), symbol("memset", 0)];
        assert_eq!(goals(first), wanted.map(|goal| format!("{goal:?}")));
        let wanted = [
            Goal::Unknown,
            symbol("bcmp", 0),
            symbol(".text.other", 0x20),
            Goal::System,
            Goal::Address(16),
        ];
        assert_eq!(goals(second), wanted.map(|goal| format!("{goal:?}")));
    }

    #[test]
    fn where_a_function_ends_is_seen_past_the_padding() {
        let listing = Listing::read(TEXT);
        assert!(listing.functions[0].ends);
        assert!(!listing.functions[1].ends);
    }
}
