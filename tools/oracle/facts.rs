//! Writes facts for the prover: what a definition gives is what the original says.
//! README.md lists them.
//! Run: facts FOLDER, with the names of the definitions to unfold on standard input.

mod values;

use std::path::Path;
use unopus::silk::ana_filt_bank_1::{silk_ana_filt_bank_1, A_fb1_20, A_fb1_21};
use unopus::silk::resampler::rom::*;
use unopus::silk::resampler::{
    silk_resampler, silk_resampler_down2, silk_resampler_down2_3, silk_resampler_init,
    ResamplerMode, ResamplerState,
};
use values::Dice;

/// A table of facts, proved as one.
struct Module {
    name: String,
    compared: &'static str,
    facts: Vec<String>,
}

impl Module {
    /// `compared` is the type of what the facts compare.
    fn new(name: &str, compared: &'static str) -> Module {
        let name = name.to_string();
        let facts = vec![];
        Module {
            name,
            compared,
            facts,
        }
    }

    fn fact(&mut self, given: &str, said: &str) {
        self.facts.push(format!("({given}\n     is {said})"));
    }

    fn text(&self) -> String {
        TABLE
            .replace("COMPARED", self.compared)
            .replace("FACTS", &self.facts.join("\n    ∷ "))
    }
}

fn main() {
    let Some(folder) = std::env::args_os().nth(1) else {
        eprintln!("usage: facts FOLDER <NAMES");
        std::process::exit(2);
    };
    let names = std::io::read_to_string(std::io::stdin()).expect("the names can be read");
    let dice = &mut Dice::new(2);
    let kinds = [
        ("tables", vec![tables()]),
        ("parameters", vec![parameters()]),
        ("opening", vec![opening()]),
        ("1/2 decimator", vec![down2(dice)]),
        ("split", vec![split(dice)]),
        ("2/3 decimator", vec![down2_3(dice)]),
        ("resampler", resampler(dice)),
    ];
    for (kind, modules) in &kinds {
        println!("{kind}: {}", count(modules));
    }
    let modules: Vec<Module> = kinds.into_iter().flat_map(|(_, modules)| modules).collect();
    println!("{} facts", count(&modules));
    write(Path::new(&folder), &names, &modules).expect("the folder can be written");
}

fn count(modules: &[Module]) -> usize {
    modules.iter().map(|module| module.facts.len()).sum()
}

fn write(folder: &Path, names: &str, modules: &[Module]) -> std::io::Result<()> {
    let mut root = "pub mod Fact\n".to_string();
    std::fs::write(folder.join("Fact.antt"), FACT.replace("NAMES", names))?;
    for module in modules {
        root += &format!("pub mod {}\n", module.name);
        std::fs::write(folder.join(format!("{}.antt", module.name)), module.text())?;
    }
    std::fs::write(folder.join("Lib.antt"), root)
}

#[derive(Clone, Copy)]
struct Pair {
    direction: usize,
    in_khz: usize,
    out_khz: usize,
}

fn pair(direction: usize, in_khz: usize, out_khz: usize) -> Pair {
    Pair {
        direction,
        in_khz,
        out_khz,
    }
}

impl Pair {
    fn open(self) -> ResamplerState {
        let [in_hz, out_hz] = [self.in_khz, self.out_khz].map(|khz| 1000 * khz as i32);
        silk_resampler_init(in_hz, out_hz, self.direction as i32)
    }

    fn text(self) -> String {
        format!("{} {} {}", self.direction, self.in_khz, self.out_khz)
    }

    fn name(self, what: &str) -> String {
        let direction = ["Decoder", "Encoder"][self.direction];
        format!("{direction}{}To{}{what}", self.in_khz, self.out_khz)
    }
}

fn pairs() -> Vec<Pair> {
    let three = [8, 12, 16];
    let five = [8, 12, 16, 24, 48];
    let encoder = five.iter().flat_map(|i| three.map(|o| pair(1, *i, o)));
    let decoder = three.iter().flat_map(|i| five.map(|o| pair(0, *i, o)));
    encoder.chain(decoder).collect()
}

/// Every row of every table, also those that no pair reads.
fn tables() -> Module {
    let mut module = Module::new("Tables", "List ℤ");
    for (name, table) in [
        ("silk_Resampler_3_4_COEFS", &silk_Resampler_3_4_COEFS[..]),
        ("silk_Resampler_2_3_COEFS", &silk_Resampler_2_3_COEFS),
        ("silk_Resampler_1_2_COEFS", &silk_Resampler_1_2_COEFS),
        ("silk_Resampler_1_3_COEFS", &silk_Resampler_1_3_COEFS),
        ("silk_Resampler_1_4_COEFS", &silk_Resampler_1_4_COEFS),
        ("silk_Resampler_1_6_COEFS", &silk_Resampler_1_6_COEFS),
        ("silk_Resampler_2_3_COEFS_LQ", &silk_Resampler_2_3_COEFS_LQ),
    ] {
        module.fact(&format!("Rom.{name}"), &list(table));
    }
    for (k, row) in silk_resampler_frac_FIR_12.iter().enumerate() {
        let given = format!("get_or Rom.silk_resampler_frac_FIR_12 {k} []");
        module.fact(&given, &list(row));
    }
    sections(&mut module);
    module
}

/// The coefficients of the sections. None is negative: where one would not fit an i16, the original
/// keeps it less 65536.
fn sections(module: &mut Module) {
    for (given, coefficients) in [
        ("Rom.silk_resampler_up2_hq_0", &silk_resampler_up2_hq_0[..]),
        ("Rom.silk_resampler_up2_hq_1", &silk_resampler_up2_hq_1),
        (
            "(Rom.silk_resampler_down2_0 ∷ Rom.silk_resampler_down2_1 ∷ [])",
            &[silk_resampler_down2_0, silk_resampler_down2_1],
        ),
        ("(Rom.A_fb1_20 ∷ Rom.A_fb1_21 ∷ [])", &unsafe {
            [A_fb1_20, A_fb1_21]
        }),
    ] {
        let whole: Vec<u16> = coefficients.iter().map(|c| *c as u16).collect();
        module.fact(given, &list(&whole));
    }
}

fn parameters() -> Module {
    let mut module = Module::new("Parameters", "ℕ");
    for pair in pairs() {
        let params = pair.open().params;
        for (definition, said) in [
            ("increment", params.inv_ratio_q16 as usize),
            ("delay", params.input_delay),
            ("batch_size", params.batch_size),
        ] {
            let given = format!("{definition} (pair {})", pair.text());
            module.fact(&given, &said.to_string());
        }
    }
    module
}

/// Opening from and to every rate, and some numbers that are none. Where the original panics, it is
/// refused.
fn opening() -> Module {
    let mut module = Module::new("Opening", "Outcome Record (Unit {0})");
    let rates = [8000, 12000, 16000, 24000, 48000, 0, 8001, -8000];
    // Panics are an answer here, and say nothing.
    std::panic::set_hook(Box::new(|_| {}));
    for in_hz in rates {
        for out_hz in rates {
            for for_enc in [0, 1, -5] {
                let asked = [in_hz, out_hz, for_enc].map(|n| format!("({})", number(n.into())));
                let given = format!("open_outcome {}", asked.join(" "));
                module.fact(&given, &opened(in_hz, out_hz, for_enc));
            }
        }
    }
    drop(std::panic::take_hook());
    module
}

fn opened(in_hz: i32, out_hz: i32, for_enc: i32) -> String {
    match std::panic::catch_unwind(|| silk_resampler_init(in_hz, out_hz, for_enc)) {
        Err(_) => "refused 1 blank tt".to_string(),
        Ok(state) => {
            let direction = (for_enc != 0) as usize;
            let pair = pair(direction, state.params.fs_in_khz, state.params.fs_out_khz);
            format!("done 0 {} tt", record(pair, &state, 0))
        }
    }
}

fn down2(dice: &mut Dice) -> Module {
    let mut module = Module::new("Down2", "Outcome (List ℤ) (List ℤ)");
    for (words, input) in calls(&[2, 4, 6, 24], dice) {
        let half = input.len() / 2;
        let mut after = words;
        let mut out = vec![0; half];
        silk_resampler_down2(&mut after, &mut out, &input);
        module.fact(
            &format!(
                "down2_outcome {} {} (zeros {half})",
                list(&words),
                list(&input)
            ),
            &format!("done {half} {} {}", list(&after), list(&out)),
        );
    }
    module
}

fn split(dice: &mut Dice) -> Module {
    let mut module = Module::new("Split", "Outcome (List ℤ) (List ℤ × List ℤ)");
    for (words, input) in calls(&[2, 4, 6, 24], dice) {
        let half = input.len() / 2;
        let (after, low, high) = split_of(words, &input);
        module.fact(
            &format!(
                "split_outcome {} {} (zeros {half}) (zeros {half})",
                list(&words),
                list(&input)
            ),
            &format!(
                "done {half} {} ({}, {})",
                list(&after),
                list(&low),
                list(&high)
            ),
        );
    }
    module
}

/// The words after a split, the low band and the high one.
fn split_of(words: [i32; 2], input: &[i16]) -> ([i32; 2], Vec<i16>, Vec<i16>) {
    let mut after = words;
    let mut low = vec![0; input.len() / 2];
    let mut high = low.clone();
    // Reads the input and both words, and writes half as many samples to each band.
    unsafe {
        silk_ana_filt_bank_1(
            input.as_ptr(),
            after.as_mut_ptr(),
            low.as_mut_ptr(),
            high.as_mut_ptr(),
            input.len() as i32,
        );
    }
    (after, low, high)
}

fn down2_3(dice: &mut Dice) -> Module {
    let mut module = Module::new("Down2_3", "Outcome (List ℤ) (List ℤ)");
    let mut calls = calls(&[3, 6, 9, 12, 30], dice);
    // The original goes in batches of 480 samples.
    calls.extend(WORDS.map(|word| (words(word, dice), any_samples(486, dice))));
    for (words, input) in calls {
        let made = input.len() / 3 * 2;
        let mut after = words;
        let mut out = room(made);
        silk_resampler_down2_3(&mut after, &mut out, &input);
        module.fact(
            &format!(
                "down23_outcome {} {} (room {made})",
                list(&words),
                list(&input)
            ),
            &format!("done {made} {} {}", list(&after), list(&out)),
        );
    }
    module
}

/// Each choice of words with each signal at each length, and with no samples.
fn calls<const N: usize>(lengths: &[usize], dice: &mut Dice) -> Vec<([i32; N], Vec<i16>)> {
    let mut calls = vec![];
    for word in WORDS {
        calls.push((words(word, dice), vec![]));
        for signal in [full_scale, impulse, any_samples, extreme_samples] {
            for length in lengths {
                calls.push((words(word, dice), signal(*length, dice)));
            }
        }
    }
    calls
}

fn resampler(dice: &mut Dice) -> Vec<Module> {
    let mut modules = vec![long_call(dice)];
    for pair in pairs() {
        modules.push(in_a_row(pair, "FullScale", full_scale, dice));
        modules.push(in_a_row(pair, "Impulse", impulse, dice));
        modules.push(in_a_row(pair, "AnySamples", any_samples, dice));
        modules.push(made_up(pair, dice));
    }
    modules
}

/// Four calls from a fresh record on. The second pass of the last one has two batches.
fn in_a_row(pair: Pair, name: &str, signal: Signal, dice: &mut Dice) -> Module {
    let mut module = Module::new(&pair.name(name), "Outcome Record (List ℤ)");
    let mut state = pair.open();
    for ms in [1, 2, 3, 12] {
        let before = record(pair, &state, 0);
        let input = signal(ms * pair.in_khz, dice);
        resample(&mut module, pair, &mut state, &before, &input);
    }
    module
}

/// Calls on records that no call leaves, with something in their dead entries too.
fn made_up(pair: Pair, dice: &mut Dice) -> Module {
    let mut module = Module::new(&pair.name("MadeUp"), "Outcome Record (List ℤ)");
    let mut state = pair.open();
    for word in [any_word, extreme_word] {
        for signal in [any_samples, extreme_samples] {
            make_up(&mut state, word, dice);
            let before = record(pair, &state, 7);
            let input = signal(2 * pair.in_khz, dice);
            resample(&mut module, pair, &mut state, &before, &input);
        }
    }
    module
}

/// The end of a call in which it would show if the read position ran on from batch to batch: from
/// output 8,192 on it would come to other rows of taps. No pair gets there in less time.
fn long_call(dice: &mut Dice) -> Module {
    let pair = pair(0, 8, 48);
    let mut module = Module::new(&pair.name("Long"), "List ℤ");
    let input = [vec![0; 171 * 8], any_samples(16, dice)].concat();
    let mut out = room(173 * 48);
    let mut state = pair.open();
    let before = record(pair, &state, 0);
    silk_resampler(&mut state, &mut out, &input);
    let said = list(&out[172 * 48..]);
    let call = format!(
        "resample_outcome {before} {} (room {})",
        list(&input),
        173 * 48
    );
    module.fact(&format!("drop {} (({call}).lent)", 172 * 48), &said);
    module
}

/// A call on the record `before`, which the state holds.
fn resample(
    module: &mut Module,
    pair: Pair,
    state: &mut ResamplerState,
    before: &str,
    input: &[i16],
) {
    let made = input.len() / pair.in_khz * pair.out_khz;
    let mut out = room(made);
    silk_resampler(state, &mut out, input);
    module.fact(
        &format!("resample_outcome {before} {} (room {made})", list(input)),
        &format!("done {made} {} {}", record(pair, state, 0), list(&out)),
    );
}

/// The record with the live entries of a state, in antt. Its dead entries hold `dead`.
fn record(pair: Pair, state: &ResamplerState, dead: i16) -> String {
    let word = dead as i32;
    let mut doubler = [word; 6];
    let mut samples = [dead; 8];
    let mut ar2 = [word; 2];
    let mut fir = [word; 36];
    let mut delay = [dead; 48];
    match &state.mode {
        ResamplerMode::Copy => {}
        ResamplerMode::Up2Hq(words) => doubler = words.iir_state,
        ResamplerMode::IirFir(words) => {
            doubler = words.up2_HQ.iir_state;
            samples = words.fir_state;
        }
        ResamplerMode::DownFir(filter, words) => {
            let live = filter.fir_order;
            ar2 = words.ar2_state;
            fir[..live].copy_from_slice(&words.fir_state[..live]);
        }
    }
    let live = state.params.input_delay;
    delay[..live].copy_from_slice(&state.delay_buf[..live]);
    let words = [
        list(&doubler),
        list(&samples),
        list(&ar2),
        list(&fir),
        list(&delay),
    ];
    format!("(line {} {})", pair.text(), words.join(" "))
}

/// Puts words into every entry of a state, and their upper halves where it holds samples.
fn make_up(state: &mut ResamplerState, word: Word, dice: &mut Dice) {
    state.delay_buf.fill_with(|| upper(word(dice)));
    match &mut state.mode {
        ResamplerMode::Copy => {}
        ResamplerMode::Up2Hq(words) => words.iir_state.fill_with(|| word(dice)),
        ResamplerMode::IirFir(words) => {
            words.up2_HQ.iir_state.fill_with(|| word(dice));
            words.fir_state.fill_with(|| upper(word(dice)));
        }
        ResamplerMode::DownFir(_, words) => {
            words.ar2_state.fill_with(|| word(dice));
            words.fir_state.fill_with(|| word(dice));
        }
    }
}

fn upper(word: i32) -> i16 {
    (word >> 16) as i16
}

/// An output for n samples with two places more: `room n` in antt.
fn room(n: usize) -> Vec<i16> {
    [vec![0; n], vec![123, -456]].concat()
}

/// A list in antt. Zeros in front and at the end are counted.
fn list<N: Copy + Into<i64>>(numbers: &[N]) -> String {
    let numbers: Vec<i64> = numbers.iter().map(|n| (*n).into()).collect();
    let used = numbers.iter().rposition(|n| *n != 0).map_or(0, |i| i + 1);
    let first = numbers[..used].iter().position(|n| *n != 0).unwrap_or(0);
    let mut text = match first {
        0 => String::new(),
        zeros => format!("zeros {zeros} ++ "),
    };
    for n in &numbers[first..used] {
        text += &format!("{} ∷ ", number(*n));
    }
    match numbers.len() - used {
        0 => format!("({text}[])"),
        zeros => format!("({text}zeros {zeros})"),
    }
}

fn number(n: i64) -> String {
    let sign = if n < 0 { '-' } else { '+' };
    format!("{sign} {}", n.abs())
}

type Word = fn(&mut Dice) -> i32;

const WORDS: [Word; 3] = [zero_word, any_word, extreme_word];

fn words<const N: usize>(word: Word, dice: &mut Dice) -> [i32; N] {
    [0; N].map(|_| word(dice))
}

fn zero_word(_: &mut Dice) -> i32 {
    0
}

fn any_word(dice: &mut Dice) -> i32 {
    dice.word()
}

fn extreme_word(dice: &mut Dice) -> i32 {
    [i32::MIN, i32::MAX][dice.between(0, 1) as usize]
}

type Signal = fn(usize, &mut Dice) -> Vec<i16>;

/// The largest and the smallest sample by turns.
fn full_scale(length: usize, _: &mut Dice) -> Vec<i16> {
    let turns = [i16::MAX, i16::MIN];
    turns.into_iter().cycle().take(length).collect()
}

/// One sample, then silence.
fn impulse(length: usize, dice: &mut Dice) -> Vec<i16> {
    let mut samples = vec![0; length];
    samples[0] = dice.sample();
    samples
}

fn any_samples(length: usize, dice: &mut Dice) -> Vec<i16> {
    (0..length).map(|_| dice.sample()).collect()
}

fn extreme_samples(length: usize, dice: &mut Dice) -> Vec<i16> {
    (0..length).map(|_| upper(extreme_word(dice))).collect()
}

/// What the tables share. To unfold `Hold` is to unfold all that its `unfolding` line names.
const FACT: &str = "\
-- A fact, the forms that facts are written in, and the claim that a table of them holds.
use Rattle.std.specs.Prelude.{◌≡◌, ℕ, List, [], ◌∷◌, ◌++◌, map, ℤ, pos, replicate}
use Rattle.filters.specs.Rom.{+◌, -◌}
use Rattle.stages.specs.Outcome.{Done, Refused, Outcome, outcome}
use Rattle.resampler.specs.declared.Record.{Record}

-- what a definition gives, and what the Rust said
pub record Fact (A : Type 0) : Type 0 where
  pub given : A
  pub said : A

infix 20 ◌is◌
abbrev pub ◌is◌ : {A : Type 0} → A → A → Fact A
g is s = record { given = g; said = s }

abbrev pub done : {S L : Type 0} → ℕ → S → L → Outcome S L
done n s l = outcome (Done n) s l

abbrev pub refused : {S L : Type 0} → ℕ → S → L → Outcome S L
refused k s l = outcome (Refused k) s l

abbrev pub zeros : ℕ → List ℤ
zeros n = replicate n (pos 0)

-- an output for n samples with two places more
abbrev pub room : ℕ → List ℤ
room n = zeros n ++ + 123 ∷ - 456 ∷ []

abbrev pub line : ℕ → ℕ → ℕ → List ℤ → List ℤ → List ℤ → List ℤ → List ℤ → Record
line d i o w s a f l = record {
  direction = d;
  inKhz = i;
  outKhz = o;
  doubler = w;
  samples = s;
  ar2 = a;
  fir = f;
  delay = l;
}

abbrev pub blank : Record
blank = line 0 0 0 (zeros 6) (zeros 8) (zeros 2) (zeros 36) (zeros 48)

unfoldable pub Hold : {A : Type 0} → List (Fact A) → Type 0
unfolding
NAMES
Hold facts = map (λ f. f.given) facts ≡ map (λ f. f.said) facts
";

const TABLE: &str = "\
use Rattle.std.specs.Prelude.{ℕ, List, [], ◌∷◌, ◌++◌, ℤ, drop, get_or, refl}
use Rattle.filters.specs.Rom as Rom
use Rattle.filters.specs.Rom.{+◌, -◌}
use Rattle.stages.specs.Outcome.{Outcome}
use Rattle.stages.specs.Entry.{down2_outcome, split_outcome, down23_outcome}
use Rattle.resampler.specs.declared.Record.{Record}
use Rattle.resampler.specs.Pairs.{pair, increment, delay}
use Rattle.resampler.specs.Resample.{batch_size}
use Rattle.resampler.specs.Entry.{open_outcome, resample_outcome}
use Rattle.facts.specs.Fact.{Fact, ◌is◌, done, refused, zeros, room, line, blank, Hold}

abbrev facts : List (Fact (COMPARED))
facts =
    FACTS
    ∷ []

-- both sides compute to one list
pub facts-hold : Hold facts
unfolding Hold
facts-hold = refl
";
