// A plain simulator, as a peer of `racelog sim`: each cycle all registers take their next levels and all assigns theirs, by walking
// the expressions, with a byte for each level, as the first simulator of this repository did. It takes the words of `racelog sim`
// after the command. Built by `rustc -O`.
use std::collections::HashMap;

enum Bit {
    Zero,
    One,
    Input(usize),
    Wire(usize),
    Reg(usize, usize),
    Not(Box<Bit>),
    And(Box<Bit>, Box<Bit>),
    Or(Box<Bit>, Box<Bit>),
}

#[derive(Clone, Copy)]
enum Name {
    Input(usize),
    Wire(usize),
    Output(usize),
    Reg(usize),
}

struct Reg {
    width: usize,
    next: Bit,
}

#[derive(Default)]
struct Module {
    names: HashMap<String, Name>,
    inputs: usize,
    outputs: Vec<String>,
    wires: usize,
    regs: Vec<Reg>,
    assigns: Vec<(Name, Bit)>,
}

struct Reader {
    words: Vec<String>,
    at: usize,
}

impl Reader {
    fn new(text: &str) -> Reader {
        let mut words = Vec::new();
        let bytes: Vec<char> = text.chars().collect();
        let mut k = 0;
        while k < bytes.len() {
            let start = k;
            if bytes[k].is_whitespace() {
                k += 1;
            } else if bytes[k].is_alphanumeric() || bytes[k] == '_' {
                while k < bytes.len() && (bytes[k].is_alphanumeric() || bytes[k] == '_' || bytes[k] == '\'') {
                    k += 1;
                }
                words.push(bytes[start..k].iter().collect());
            } else {
                k += 1;
                words.push(bytes[start].to_string());
            }
        }
        Reader { words, at: 0 }
    }

    fn next(&mut self) -> String {
        self.at += 1;
        self.words[self.at - 1].clone()
    }

    fn has(&mut self, word: &str) -> bool {
        let has = self.words[self.at] == word;
        self.at += usize::from(has);
        has
    }

    fn skip(&mut self, count: usize) {
        self.at += count;
    }

    fn number(&mut self) -> usize {
        self.next().parse().unwrap()
    }

    fn expression(&mut self, m: &Module) -> Bit {
        let mut all = self.product(m);
        while self.has("|") {
            all = Bit::Or(Box::new(all), Box::new(self.product(m)));
        }
        all
    }

    fn product(&mut self, m: &Module) -> Bit {
        let mut all = self.factor(m);
        while self.has("&") {
            all = Bit::And(Box::new(all), Box::new(self.factor(m)));
        }
        all
    }

    fn factor(&mut self, m: &Module) -> Bit {
        if self.has("~") {
            return Bit::Not(Box::new(self.factor(m)));
        }
        if self.has("(") {
            let inner = self.expression(m);
            self.skip(1);
            return inner;
        }
        let word = self.next();
        match word.as_str() {
            "1'b0" => Bit::Zero,
            "1'b1" => Bit::One,
            name => match m.names[name] {
                Name::Input(i) => Bit::Input(i),
                Name::Wire(w) => Bit::Wire(w),
                Name::Reg(r) if self.has("[") => {
                    let bit = self.number();
                    self.skip(1);
                    Bit::Reg(r, bit)
                }
                Name::Reg(r) => Bit::Reg(r, 0),
                Name::Output(_) => unreachable!(),
            },
        }
    }

    fn module(&mut self) -> Module {
        let mut m = Module::default();
        while self.next() != ";" {}
        loop {
            match self.next().as_str() {
                "endmodule" => return m,
                "input" => {
                    let name = self.next();
                    if name.starts_with("in_") {
                        m.names.insert(name, Name::Input(m.inputs));
                        m.inputs += 1;
                    }
                    self.skip(1);
                }
                "output" => {
                    let name = self.next();
                    m.names.insert(name.clone(), Name::Output(m.outputs.len()));
                    m.outputs.push(name);
                    self.skip(1);
                }
                "wire" => {
                    m.names.insert(self.next(), Name::Wire(m.wires));
                    m.wires += 1;
                    self.skip(1);
                }
                "reg" => {
                    let mut width = 1;
                    if self.has("[") {
                        width = self.number() + 1;
                        self.skip(3);
                    }
                    m.names.insert(self.next(), Name::Reg(m.regs.len()));
                    m.regs.push(Reg { width, next: Bit::Zero });
                    self.skip(1);
                }
                "assign" => {
                    let name = m.names[&self.next()];
                    self.skip(1);
                    let bit = self.expression(&m);
                    m.assigns.push((name, bit));
                    self.skip(1);
                }
                _ => {
                    while self.next() != "else" {}
                    let Name::Reg(r) = m.names[&self.next()] else { unreachable!() };
                    self.skip(2);
                    if self.has("{") {
                        while self.next() != "," {}
                    }
                    m.regs[r].next = self.expression(&m);
                    while self.next() != ";" {}
                }
            }
        }
    }
}

struct Levels {
    inputs: Vec<bool>,
    wires: Vec<bool>,
    outputs: Vec<bool>,
    regs: Vec<Vec<bool>>,
}

impl Levels {
    fn level(&self, bit: &Bit) -> bool {
        match bit {
            Bit::Zero => false,
            Bit::One => true,
            Bit::Input(i) => self.inputs[*i],
            Bit::Wire(w) => self.wires[*w],
            Bit::Reg(r, k) => self.regs[*r][*k],
            Bit::Not(x) => !self.level(x),
            Bit::And(x, y) => self.level(x) && self.level(y),
            Bit::Or(x, y) => self.level(x) || self.level(y),
        }
    }

    fn shift(&mut self, reg: usize, level: bool) {
        let bits = &mut self.regs[reg];
        let kept = bits.len() - 1;
        bits.copy_within(..kept, 1);
        bits[0] = level;
    }

    fn settle(&mut self, m: &Module) {
        for (name, bit) in &m.assigns {
            let level = self.level(bit);
            match name {
                Name::Wire(w) => self.wires[*w] = level,
                Name::Output(o) => self.outputs[*o] = level,
                _ => unreachable!(),
            }
        }
    }
}

fn main() {
    let words: Vec<String> = std::env::args().collect();
    let m = Reader::new(&std::fs::read_to_string(&words[1]).unwrap()).module();
    let cycles: u64 = words[2].parse().unwrap();
    let times: Vec<u64> = words[3..].iter().map(|word| word.parse().unwrap_or(u64::MAX)).collect();
    let mut levels = Levels {
        inputs: vec![false; m.inputs],
        wires: vec![false; m.wires],
        outputs: vec![false; m.outputs.len()],
        regs: m.regs.iter().map(|reg| vec![false; reg.width]).collect(),
    };
    let mut rows = vec![Vec::with_capacity(cycles as usize); m.outputs.len()];
    let mut firsts = vec![false; m.regs.len()];
    for cycle in 0..cycles {
        if cycle > 0 {
            for (first, reg) in firsts.iter_mut().zip(&m.regs) {
                *first = levels.level(&reg.next);
            }
            for reg in 0..firsts.len() {
                levels.shift(reg, firsts[reg]);
            }
        }
        for (input, time) in levels.inputs.iter_mut().zip(&times) {
            *input = *time <= cycle;
        }
        levels.settle(&m);
        for (row, level) in rows.iter_mut().zip(&levels.outputs) {
            row.push(b'0' + u8::from(*level));
        }
    }
    for (name, row) in m.outputs.iter().zip(&rows) {
        println!("{} {}", &name[4..], String::from_utf8_lossy(row));
    }
}
