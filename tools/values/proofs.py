"""The proofs of the crate: each verdict by computation."""
from __future__ import annotations

from .specs import MADE, Files, claim, used

IMPORTS = """use Rattle.std.proofs.Common.{◌≡◌, refl}
use Rattle.wbt_counter.specs.Batch.{domain_batch, context_batch}
use Rattle.wbt_num.specs.Arithmetic.{halvings, log2}
use Rattle.wbt_position.specs.Polynom.{polynom_value}
use Rattle.wbt_position.specs.Position.{position_ratio}
use Rattle.wbt_pause.specs.Pauses.{longest_pause, least_pause}
use Rattle.wbt_estimate.specs.Estimate.{first_at}
use Rattle.wbt_limits.specs.Thresholds.{global_threshold, threshold, background_below, thresholds_of}
use Rattle.wbt_pause.specs.Decision.{decided, rate_of, cut_decision, go_decision, throttled, decision_of}
use Rattle.wbt_expiry.specs.Waiting.{with_pair, has_inode}
use Rattle.wbt_rules.specs.Age.{ages_in, expire_ticks}
use Rattle.wbt_rules.specs.First.{first_estimate}
use Rattle.wbt_rules.specs.Strict.{is_strict}
use Rattle.wbt_strict.specs.Decision.{decision_for, exceeded_for}
use Rattle.wbt_strict.specs.Position.{strict_ratio}
use Rattle.wbt_task.specs.Allowance.{first, page_after, ended}
use Rattle.wbt_task.specs.History.{new_writer, new_cpu, cpu_step, cpu_after}
use Rattle.wbt_journal.specs.Checks.{mark_of, with_marks}
use Rattle.wbt_journal.specs.Verdict.{lawful, broken, verdict_of}
"""

OPENED = (
    "halvings log2 polynom_value position_ratio strict_ratio longest_pause least_pause domain_batch context_batch first_at "
    "first_estimate global_threshold threshold background_below thresholds_of decided rate_of cut_decision go_decision throttled "
    "decision_of is_strict decision_for exceeded_for first page_after ended new_writer new_cpu cpu_step cpu_after mark_of verdict_of "
    "ages_in expire_ticks with_pair has_inode")
"""Definitions that computing a verdict opens."""


def proofs(files: Files) -> str:
    """The file of proofs: a claim each, so that none takes long."""
    taken = [case for _, cases in files for case in cases]
    out = [f"-- Each verdict by computation: {MADE}.\n", IMPORTS, "use Rattle.wbt_judged.specs.Judged.{AreJudged}\n", used(files)]
    out += [f"\nis_{case.name} : {claim(case)}\nunfolding {OPENED}\nis_{case.name} = refl\n" for case in taken]
    out.append("\npub are_judged : AreJudged\nare_judged = record {\n")
    out += [f"  is_{case.name} = is_{case.name};\n" for case in taken]
    out.append("}\n")
    return "".join(out)
