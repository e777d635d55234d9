"""The drivers of the bench, programs in Rattle with their proofs: `files(code)` answers the files of the one that calls `Machine::run_on`, by path,
`counted_files(code)` those of the one that calls `Machine::run_for`, with 1,000 instructions at a time."""

HEAD = """// Runs a job on the machine, one tick a call.
#![tactic(auto)]

ghost use Rattle.std.specs.Prelude.{◌≡◌, ℕ, ◌+◌, ◌*◌, ◌^◌, ◌<◌, ◌≤◌, ◌-◌, length, true, false};
ghost use Rattle.ckpt_base.specs.declared.ending.Ending.{Ending};
ghost use Rattle.dirty_pages.specs.Pages.{in_snapshot};
ghost use Rattle.paged_machine.specs.Standing.{StandsIn};
ghost use Rattle.paged_machine.specs.Fitting.{FitTogether};

mod program;

use ckpt_base::{Ending, NoMemory};
use dirty_pages::Pages;
use machine_code::{Code, Event, Instr};
use page_frames::Frames;
use paged_machine::{Machine, Steps};
use std::alloc::{AllocError, Global};
use std::io;
use std::marker::Brand;
use std::sync::ledger::{Blank, Ledger};

/// Runs a machine until it ends or stands at a tick that would pass the bound.
fn go<L: Ledger>(
    until: u64,
    code: &Code,
    machine: &mut Machine,
    frames: &mut Frames,
    pages: &mut Pages,
    steps: &mut Steps<L>,
) -> Ending
    requires stands { StandsIn code.now machine.old }
    requires fit { FitTogether code.now frames.old pages.old }
    requires clear { (p : ℕ) → in_snapshot pages.old p ≡ false }
    requires live { machine.old.live ≡ true }
    ensures live { result ≡ Ending.Going → machine.new.live ≡ true }
    ensures stands { StandsIn code.now machine.new }
    ensures fit { FitTogether code.now frames.new pages.new }
    ensures clear { (p : ℕ) → in_snapshot pages.new p ≡ false }
{
    for _ in 0..u64::MAX {
        match machine.run_on(code, frames, pages, until, steps) {
            None => return Ending::Going,
            Some(event) => {
                if let Event::WriteFault(p) = event {
                    pages.serve_fault(p);
                }
                if !machine.is_live() {
                    return Ending::Trapped(0);
                }
            }
        }
    }
    Ending::Going
}

/// Runs a machine to its end, one tick a call, and answers the ticks.
fn drive<L: Ledger>(
    code: &Code,
    machine: &mut Machine,
    frames: &mut Frames,
    pages: &mut Pages,
    steps: &mut Steps<L>,
) -> u64
    requires stands { StandsIn code.now machine.old }
    requires fit { FitTogether code.now frames.old pages.old }
    requires clear { (p : ℕ) → in_snapshot pages.old p ≡ false }
    requires live { machine.old.live ≡ true }
{
    for k in 0..1_000_000_000_000u64 {
        match go(k + 1, code, machine, frames, pages, steps) {
            Ending::Going => {}
            _ => return machine.ticks(),
        }
    }
    machine.ticks()
}

fn job_code(alloc: Global) -> Result<Code, AllocError> {
    let instrs = Vec::from_slice(alloc, &program::CODE)?;
    let objects = vec![in alloc; (0, 65536), (65536, 65536)]?;
    let checkpoints = vec![in alloc; CHECKPOINT]?;
    Ok(Code::of(instrs, Vec::new(alloc), objects, checkpoints, 16))
}

/// The ticks of the job, or None where the code is not valid.
fn job<L: Ledger>(alloc: Global, blank: Blank) -> Result<Option<u64>, NoMemory>
    requires name { blank.name ≡ L.name }
    requires parts { blank.parts ≡ L.parts }
    requires some { 0 < blank.parts }
{
    let code = job_code(alloc)?;
    let mut frames = Frames::new(alloc, 513, 0)?;
    let mut pages = Pages::new(alloc, 513)?;
    if !code.fits(513 * 512) {
        return Ok(None);
    }
    if !code.is_valid(alloc)? {
        return Ok(None);
    }
    let mut machine = Machine::new(alloc, &code)?;
    let mut steps = Steps::<L>::new(blank);
    Ok(Some(drive(&code, &mut machine, &mut frames, &mut pages, &mut steps)))
}

fn main(rt: HostRuntime) -> io::Result<()> {
    match job::<Brand>(rt.alloc(), Blank::new(1)) {
        Err(_) => println!(rt; "no memory"),
        Ok(None) => println!(rt; "not valid"),
        Ok(Some(ticks)) => println!(rt; "ticks {ticks}"),
    }
}
"""

PROOFS = {
    "proofs/Lib.antt": "pub mod Kept\n",
    "proofs/Kept.antt": """use Rattle.std.proofs.Common.{◌≡◌, ◌*◌, ℕ, List, length, replicate, sym, ap, ◌∙◌, subst, true, false, get_or, zero, suc, refl, arith}
use Rattle.std.proofs.lemmas.List.{length-set}
use Rattle.dirty_pages.specs.Pages.{PageStates, served, in_snapshot}
use Rattle.machine_code.specs.CodeView.{CodeView}
use Rattle.machine_code.specs.Memory.{FitsMemory}
use Rattle.paged_machine.specs.Fitting.{FitTogether}

pub after_step : (c : CodeView) (m n : List ℕ) (pages : PageStates) → length n ≡ length m → FitTogether c m pages → FitTogether c n pages
after_step c m n pages e fit = record { same = e ∙ fit.same; few = fit.few; cells = subst (FitsMemory c) (sym e) fit.cells }

pub after_serve : (c : CodeView) (m : List ℕ) (old new : PageStates) (p : ℕ) → new ≡ served old p → FitTogether c m old → FitTogether c m new
after_serve c m old new p e fit =
    let l : length new.dirty ≡ length old.dirty = ap (λ (s : PageStates). length s.dirty) e ∙ length-set old.dirty p true in
    record { same = omega (arith, fit.same); few = omega (arith, fit.few); cells = fit.cells }

pub still_clear : (old new : PageStates) (p : ℕ) → new ≡ served old p → ((q : ℕ) → in_snapshot old q ≡ false) → (q : ℕ) → in_snapshot new q ≡ false
still_clear old new p e clear q = ap (λ (s : PageStates). in_snapshot s q) e ∙ clear q

pub fresh_clear : (n q : ℕ) → get_or (replicate n false) q false ≡ false
fresh_clear zero q = refl
fresh_clear (suc n) zero = refl
fresh_clear (suc n) (suc q) = fresh_clear n q
""",
    "proofs/go/Invariants.antt": """use Rattle.std.proofs.Common.{◌≡◌, ℕ, false, true}
use Rattle.dirty_pages.specs.Pages.{in_snapshot}
use Rattle.paged_machine.specs.Standing.{StandsIn}
use Rattle.paged_machine.specs.Fitting.{FitTogether}
use Rattle.drive.proofs.go.Given as goal

abbrev pub invariant-loop : goal.invariant-loop
invariant-loop g l = record {
  stands : StandsIn l.code l.machine;
  fit : FitTogether l.code l.frames l.pages;
  clear : (p : ℕ) → in_snapshot l.pages p ≡ false;
  live : l.machine.live ≡ true;
}
""",
    "proofs/drive/Invariants.antt": """use Rattle.std.proofs.Common.{◌≡◌, ℕ, false, true}
use Rattle.dirty_pages.specs.Pages.{in_snapshot}
use Rattle.paged_machine.specs.Standing.{StandsIn}
use Rattle.paged_machine.specs.Fitting.{FitTogether}
use Rattle.drive.proofs.drive.Given as goal

abbrev pub invariant-loop-k : goal.invariant-loop-k
invariant-loop-k g l = record {
  stands : StandsIn l.code l.machine;
  fit : FitTogether l.code l.frames l.pages;
  clear : (p : ℕ) → in_snapshot l.pages p ≡ false;
  live : l.machine.live ≡ true;
}
""",
    "proofs/job/Answers.antt": """use Rattle.std.proofs.Common.{◌≡◌, ◌*◌, ℕ, List, length, replicate, true, false, sym, ap, ◌∙◌, subst, arith}
use Rattle.std.proofs.lemmas.List.{length-replicate}
use Rattle.dirty_pages.specs.Pages.{PageStates, fresh, in_snapshot}
use Rattle.machine_code.specs.Memory.{FitsMemory}
use Rattle.page_frames.specs.Words.{fill_word}
use Rattle.drive.proofs.Kept.{fresh_clear}
use Rattle.drive.proofs.job.Goals as goal

pub drive-requires-clause-fit : goal.drive-requires-clause-fit
drive-requires-clause-fit g c =
    let cells : length c.in_ok-frames.frames ≡ 262656 = ap length c.in_ok-frames.ensures.answer ∙ length-replicate 262656 (fill_word 0) in
    let pages : length c.in_ok-pages.pages.dirty ≡ 513 = ap (λ (s : PageStates). length s.dirty) c.in_ok-pages.ensures.answer ∙ length-replicate 513 true in
    record { same = omega arith; few = omega arith; cells = subst (FitsMemory c.in_ok-code.code) (sym cells) (c.fits.ensures.answer.0 c.if-not-fits.false) }

pub drive-requires-clause-clear : goal.drive-requires-clause-clear
drive-requires-clause-clear g c = λ p. ap (λ s. in_snapshot s p) c.in_ok-pages.ensures.answer ∙ fresh_clear 513 p
""",
    "proofs/main/Invariants.antt": """use Rattle.drive.proofs.main.Given as goal

abbrev pub ghosts-job : goal.ghosts-job
ghosts-job a = record { name = a.blank.name; parts = a.blank.parts }
""",
}


def instruction(name, operand):
    return "    Instr::%s,\n" % (name if operand is None else "%s(%d)" % (name, operand))


def files(code):
    checkpoint = ["(%d, %d)" % (node, place + 1) for place, (name, node) in enumerate(code) if name == "Ckpt"]
    job = "// The code of the job.\n\nuse machine_code::Instr;\n\npub static CODE: [Instr; %d] = [\n" % len(code)
    job += "".join(instruction(name, operand) for name, operand in code) + "];\n"
    return {"src/main.rt": HEAD.replace("CHECKPOINT", ", ".join(checkpoint)), "src/program.rt": job, **PROOFS}


COUNTED = [
    ("/// Runs a machine until it ends or", "/// How many instructions are done at a time.\nconst COUNT: u64 = 1000;\n\n/// Runs a machine until it ends or"),
    ("    pages: &mut Pages,\n    steps: &mut Steps<L>,\n) -> Ending", "    pages: &mut Pages,\n    left: &mut u64,\n    steps: &mut Steps<L>,\n) -> Ending"),
    (
        "        match machine.run_on(code, frames, pages, until, steps) {\n            None => return Ending::Going,\n",
        "        if *left == 0 {\n            *left = COUNT;\n        }\n        match machine.run_for(code, frames, pages, until, left, steps) {\n            None => {\n"
        "                if *left > 0 {\n                    return Ending::Going;\n                }\n            }\n",
    ),
    ("    for k in 0..", "    let mut left = COUNT;\n    for k in 0.."),
    ("go(k + 1, code, machine, frames, pages, steps)", "go(k + 1, code, machine, frames, pages, &mut left, steps)"),
]


def counted_files(code):
    made = files(code)
    for old, new in COUNTED:
        assert made["src/main.rt"].count(old) == 1, old
        made["src/main.rt"] = made["src/main.rt"].replace(old, new)
    return {path: text.replace("Rattle.drive.", "Rattle.drive_counted.") for path, text in made.items()}
