//! Every way through a function's code: how far down it takes the stack pointer,
//! and what it calls. Where two ways meet, the stack pointer must be the same, and
//! where it returns as it began.

use super::assembly::{Code, Tables};
use super::processors::{begins, Effect, Flow, Processor, INDIRECT};
use std::collections::BTreeSet;

#[derive(Default)]
pub struct Function {
    pub name: String,
    /// How far the stack pointer goes down.
    pub moved: usize,
    /// The same, with what is used below it.
    pub bytes: usize,
    pub calls: BTreeSet<String>,
}

struct Ways<'a> {
    processor: &'a Processor,
    code: &'a Code,
    tables: &'a Tables,
    /// Before each instruction that was come to: how deep the stack is.
    before: Vec<Option<i64>>,
    /// Where to go on, and how deep the stack is there.
    open: Vec<(usize, i64)>,
    function: Function,
    told: Vec<String>,
}

pub fn followed(
    processor: &Processor,
    code: &Code,
    tables: &Tables,
    wrong: &mut Vec<String>,
) -> Function {
    let mut ways = Ways {
        processor,
        code,
        tables,
        before: vec![None; code.lines.len()],
        open: vec![(0, 0)],
        function: Function::default(),
        told: Vec::new(),
    };
    while let Some((at, depth)) = ways.open.pop() {
        ways.come_to(at, depth);
    }
    ways.see_that_all_is_reached();
    ways.see_that_jumps_have_tables();
    let told = ways.told.iter();
    wrong.extend(told.map(|text| format!("{}: {text}", code.name)));
    Function {
        name: code.name.clone(),
        ..ways.function
    }
}

impl Ways<'_> {
    fn tell(&mut self, text: String) {
        self.told.push(text);
    }

    fn come_to(&mut self, at: usize, depth: i64) {
        let Some((text, effect)) = self.code.lines.get(at) else {
            return self.tell("its code runs past its end".to_string());
        };
        match self.before[at] {
            Some(same) if same == depth => return,
            Some(_) => return self.tell(format!("two depths of the stack at `{text}`")),
            None => self.before[at] = Some(depth),
        }
        if let Some(what) = effect.wrong {
            self.tell(format!("{what}: `{text}`"));
        }
        let after = depth + effect.grows;
        if after < 0 {
            return self.tell(format!("takes of its caller's stack at `{text}`"));
        }
        self.count(effect, depth as usize, after as usize);
        self.go_on(at, after);
    }

    fn count(&mut self, effect: &Effect, depth: usize, after: usize) {
        let function = &mut self.function;
        function.moved = function.moved.max(after);
        function.bytes = function.bytes.max(depth + effect.below).max(after);
        function.calls.extend(effect.callee.clone());
    }

    fn go_on(&mut self, at: usize, after: i64) {
        let (text, effect) = &self.code.lines[at];
        if matches!(effect.flow, Flow::On | Flow::OnOrTo(_)) {
            self.open.push((at + 1, after));
        }
        match &effect.flow {
            Flow::On => {}
            Flow::To(label) | Flow::OnOrTo(label) => self.go_to(label, after),
            Flow::Table => self.go_by_table(text, after),
            Flow::Nowhere if after == 0 || is_trap(text) => {}
            Flow::Nowhere => self.tell(format!("returns with {after} bytes at `{text}`")),
        }
    }

    fn go_to(&mut self, label: &str, after: i64) {
        match self.code.labels.get(label) {
            Some(&place) => self.open.push((place, after)),
            None => self.tell(format!("goes to {label}, which isn't there")),
        }
    }

    /// Which table it is isn't told: to wherever one of them leads.
    fn go_by_table(&mut self, text: &str, after: i64) {
        let tables = self.tables;
        if tables.labels.is_empty() {
            self.tell(format!("goes where no table says: `{text}`"));
        }
        for label in &tables.labels {
            self.go_to(label, after);
        }
    }

    fn see_that_all_is_reached(&mut self) {
        let mut lines = self.code.lines.iter().zip(&self.before);
        let unreached = lines.find(|((text, _), before)| before.is_none() && !is_trap(text));
        if let Some(((text, _), _)) = unreached {
            self.tell(format!("no way to `{text}`"));
        }
    }

    /// A jump through a register may be one by a table or the call of a pointer as
    /// the last thing that is done. A table has one jump at least: where there are
    /// more jumps than tables, one of them may be such a call, unless each is seen
    /// to read a table.
    fn see_that_jumps_have_tables(&mut self) {
        let lines = self.code.lines.iter().enumerate();
        let jumps: Vec<usize> = lines
            .filter(|(_, (_, effect))| effect.flow == Flow::Table)
            .map(|(at, _)| at)
            .collect();
        let (count, tables) = (jumps.len(), self.tables.count);
        if count > tables && !jumps.into_iter().all(|at| self.reads_table(at)) {
            self.tell(format!(
                "{INDIRECT}: jumps through a register {count}, jump tables {tables}"
            ));
        }
    }

    fn reads_table(&self, at: usize) -> bool {
        let labels = self.code.labels.values();
        let from = labels.filter(|&&place| place <= at).max().unwrap_or(&0);
        let lines = self.code.lines[*from..=at].iter();
        let texts: Vec<&str> = lines.map(|(text, _)| text.as_str()).collect();
        match texts.split_last() {
            Some((jump, before)) => (self.processor.reads_table)(before, jump),
            None => false,
        }
    }
}

fn is_trap(text: &str) -> bool {
    begins(text, &["ud2", "brk", "udf", "nop", "int3"])
}
