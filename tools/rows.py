"""Writes the computed runs of am_computed_cases: statements that the definitions give a text for a script, from scripts and their expected texts.

    rows.py CASES OUT

CASES is a folder of folders. Each of these has at least two cases and a file about.txt, a line that says what its cases are. A case is a
play script NAME.json, and the text NAME.txt that it must write. OUT is a crate's folder. For each folder F of CASES this writes specs/F.antt
with a statement for each case, src/F.rt with a function whose contract they are, and its answers, by computing. For all of them it writes
proofs/Opened.antt, with the definitions that the answers unfold.

A folder without an about.txt isn't computed: only the program runs it.
"""

import json
import os
import re
import textwrap
from typing import Any

from words import words

OPENED = """
use Rattle.am_base.specs.Names.{list_by_place}
use Rattle.am_base.specs.Lists.{after, fits, image_after_entries}
use Rattle.am_base.specs.Fronts.{greatest_passing_number}
use Rattle.am_base.specs.Votes.{best_vote_from}
use Rattle.am_model.specs.Node.{names_that_pass}
use Rattle.am_node_defs.specs.Cores.{raise_accepted_to_told, pass_over_below_join, union_of_members_at}
use Rattle.am_node_defs.specs.Reports.{least_of_names}
use Rattle.am_node_defs.specs.Refresh.{raise_own_report, tell_accept_front, advance_with_reports, trim_to_least_taken}
use Rattle.am_model.specs.Refresh.{refresh_as_sequencer, refresh, settle_waiting_send, refresh_at_end}
use Rattle.am_model.specs.Emit.{letters_of_entries, finish}
use Rattle.am_model.specs.Ballots.{best_vote_for_ballot, decide, begin_ballot, keep_vote_in_ballot, give_up_in_ballot}
use Rattle.am_model.specs.Calls.{first_lives_of_other_places, send_row, done_row, take_row, join_row, state_row, leave_row, reset_row, ask_row, give_up_row}
use Rattle.am_model.specs.Ticks.{tick_row}
use Rattle.am_model.specs.Sequencing.{request_row, ack_row, nack_row}
use Rattle.am_model.specs.Receiving.{spread_row, bcast_row, order_row, accept_row, hold_row}
use Rattle.am_model.specs.Joining.{join_ask_row, welcome_row, leave_ask_row, gone_row}
use Rattle.am_model.specs.Resets.{invite_row, vote_row, fetch_row, piece_row, result_row}
use Rattle.am_model.specs.Hearing.{hear_row}
use Rattle.am_model.specs.Step.{row, step, hear_packet, hear_refused_bytes}
use Rattle.am_group_defs.specs.World.{world_with_record, world_with_step, happens, world_after_events}
use Rattle.am_group_defs.specs.Lawful.{is_complete, is_lawful, greatest_complete, watch_event, watch_events}
use Rattle.am_group_defs.specs.Settle.{running_places, hearings_from, settle_waves, settle_rounds, settle_events}
use Rattle.am_group_defs.specs.Text.{name_text, stamp_text, names_text, body_text, resilience_text, entry_text, outcome_word, outcome_parts, outcome_text, act_word, act_parts, event_text, kind_word, addressees_text, letter_text, record_line, records_text, group_line, group_text, log_line, empty_log_line, log_text, logs_text, mark_line, play_text}
use Rattle.std.specs.Fmt.{digits}
use Rattle.am_computed_cases.specs.Scripts.{set_of}
"""


def opened_names(opened: str) -> str:
    """The names of `use` lines, for an `unfolding` line."""
    return " ".join(name.strip() for line in opened.strip().splitlines() for name in line[line.index("{") + 1:-1].split(","))


def fitted(line: str, more: str = "    ") -> str:
    """A line, broken at spaces where it is longer than others are."""
    return "\n".join(textwrap.wrap(line, 150, subsequent_indent=more, break_long_words=False, break_on_hyphens=False))


def fitted_uses(line: str) -> str:
    """A `use` line, as several where it is longer than others are."""
    head, names = line[:line.index("{") + 1], line[line.index("{") + 1:-1].split(", ")
    lines = textwrap.wrap(" ".join(names), 156 - len(head), break_long_words=False, break_on_hyphens=False)
    return "\n".join(head + ", ".join(some.split(" ")) + "}" for some in lines)


def packed(events: list[str]) -> list[str]:
    """The lines of a list's events, as many to a line as fit."""
    lines: list[str] = []
    for event in events:
        if lines and len(lines[-1]) + len(event) < 150:
            lines[-1] += " " + event + " ∷"
        else:
            lines.append("    " + event + " ∷")
    return [fitted(line) + "\n" for line in lines]


def items(xs: list[str]) -> str:
    """A list term."""
    return "[]" if not xs else "(" + " ∷ ".join(xs) + " ∷ [])"


def body(text: str) -> str:
    """A body's bytes, from its hexadecimal digits or a dash."""
    digits = "" if text == "-" else text
    return items([str(int(digits[i:i + 2], 16)) for i in range(0, len(digits), 2)])


def name_list(numbers: list[int]) -> str:
    """A list term of names."""
    return items([str(n) for n in numbers])


def act(event: dict[str, Any], resilience: int) -> str:
    """The act of a script's event."""
    do = event["do"]
    if do == "send":
        return "(act.Send %s)" % body(event["body"])
    if do == "done":
        return "(act.Done %d)" % event["req"]
    if do == "reset":
        return "(act.Reset %d %d)" % (event["least"], event.get("resilience", resilience))
    if do == "ask":
        return "(act.Ask %d)" % event["round"]
    if do == "giveup":
        return "(act.GiveUp %d)" % (event["name"] + 16 * (event.get("life", 1) - 1))
    if do == "hear":
        return "(act.Hear %d)" % event["packet"]
    if do == "cut":
        return "(act.Cut %d %d)" % (event["packet"], event["keep"])
    return "act." + {"take": "Take", "join": "Join", "state": "State", "leave": "Leave", "stop": "Stop", "tick": "Tick",
                     "return": "Return"}[do]


def codes(line: str) -> str:
    """A line of a text, in parts where it is longer than others are."""
    parts = ['codes "%s"' % line[at:at + 120] for at in range(0, len(line), 120)]
    return parts[0] if len(parts) == 1 else "(%s)" % "\n    ++ ".join(parts)


def statement(title: str, script: dict[str, Any], text: str) -> str:
    """The statement of a case: the text of its events is this one."""
    play = script["play"]
    resilience = play.get("resilience", 0)
    events = ["on %d %s" % (e["node"], act(e, resilience)) for e in play["events"]]
    founding = "(rules_with %s %d %d %d)" % (name_list(play["founders"]), resilience, play.get("window", 64),
                                          play.get("pb_up_to", 256))
    words = "settled_play_text_of" if play.get("settle") else "play_text_of"
    run = fitted("%s = %s %s (" % (title, words, founding)) + "\n" + "".join(packed(events)) + "    [])"
    lines = "".join("    %s ∷\n" % codes(line) for line in text.splitlines())
    return "abbrev pub %s : Type 0\n%s ≡ lines (\n%s    [])\n" % (title, run, lines)


def titled(case: str) -> str:
    """The name of a case, or a folder, as a definition has it."""
    return "".join(part.capitalize() for part in case.replace("-", "_").split("_"))


SPECS_HEAD = """use Rattle.std.specs.Prelude.{◌≡◌, [], ◌∷◌, ◌++◌, codes}
use Rattle.am_group.specs.declared.event.Act.TheVariants as act
use Rattle.am_group_defs.specs.Play.{play_text_of, settled_play_text_of}
use Rattle.am_computed_cases.specs.Scripts.{rules_with, on, lines}
"""


def used(head: str, text: str) -> str:
    """The `use` lines of a head with the names alone that a text uses."""
    lines = []
    for line in head.strip().splitlines():
        if "{" in line:
            kept = [n for n in line[line.index("{") + 1:-1].split(", ") if is_used(n, text)]
            if kept:
                lines.append(fitted_uses(line[:line.index("{") + 1] + ", ".join(kept) + "}"))
        elif is_used(line.split(" as ")[1] + ".", text):
            lines.append(line)
    return "\n".join(lines) + "\n"


def is_used(name: str, text: str) -> bool:
    """Whether a text uses a name; an operator by its sign."""
    if name.endswith("."):
        return re.search(r"\b" + re.escape(name), text) is not None
    if name in ("◌≡◌", "◌∷◌", "◌++◌", "[]"):
        return name.strip("◌") in text
    return re.search(r"(?<![\w.])" + re.escape(name) + r"(?![\w])", text) is not None


def write(path: str, text: str) -> None:
    """Writes a file, with its folders."""
    os.makedirs(os.path.dirname(path), exist_ok=True)
    with open(path, "w") as f:
        f.write(text)


def opened_file(opened: str) -> str:
    """The definition that unfolds all that a text is computed by."""
    return ("-- All that a text is computed by. Written by tools/rows.py.\nuse Rattle.std.proofs.Common.{ℕ}\n"
            + "".join(fitted_uses(line) + "\n" for line in opened.strip().splitlines())
            + "\n-- to unfold this is to unfold all of it\nunfoldable pub opened : ℕ\n%s\nopened = 0\n"
            % fitted("unfolding " + opened_names(opened)))


def carrier(crate: str, module: str, folder: str, about: str, found: list[str]) -> tuple[str, str]:
    """The function whose contract the statements are, and its answers."""
    clauses = "".join("    ensures %s { %s }\n" % (c, titled(c)) for c in found)
    source = ("//! %s Written by tools/rows.py.\n\nghost use Rattle.%s.specs.%s.{%s};\n\n"
              "/// The definitions give these texts for these scripts.\npub fn texts()\n%s{}\n") % (
                  about, crate, module, ", ".join(titled(c) for c in found), clauses)
    answers = ("-- The texts of these scripts, by computing. Written by tools/rows.py.\nuse Rattle.std.proofs.Common.{refl}\n"
               "use Rattle.%s.proofs.Opened.{opened}\nuse Rattle.%s.proofs.%s.texts.Goals as goal\n" % (crate, crate, folder))
    for c in found:
        answers += "\npub returns-clause-%s : goal.returns-clause-%s\nunfolding opened\nreturns-clause-%s c = refl\n" % (c, c, c)
    return source, answers


def read_case(cases: str, folder: str, case: str) -> tuple[dict[str, Any], str]:
    """A case's script and its text."""
    place = os.path.join(cases, folder)
    with open(os.path.join(place, case + ".json")) as f:
        script = json.load(f)
    with open(os.path.join(place, case + ".txt")) as f:
        return script, f.read()


def write_module(out: str, folder: str, head: str, source: str, answers: str, head_line: str, statements: list[str]) -> None:
    """Writes a module's three files."""
    specs = "".join("\n" + s for s in statements)
    write(os.path.join(out, "specs", titled(folder) + ".antt"), head_line + used(head, specs) + specs)
    write(os.path.join(out, "src", folder + ".rt"), source)
    write(os.path.join(out, "proofs", folder, "texts", "Answers.antt"), answers)


def write_folder(cases: str, out: str, folder: str) -> None:
    """The statements of a folder of cases."""
    place = os.path.join(cases, folder)
    found = sorted(f[:-5] for f in os.listdir(place) if f.endswith(".json"))
    with open(os.path.join(place, "about.txt")) as f:
        about = f.read().strip()
    statements = [statement(titled(case), *read_case(cases, folder, case)) for case in found]
    source, answers = carrier("am_computed_cases", titled(folder), folder, about, found)
    head_line = "-- Scripts and their texts. Written by tools/rows.py from %s/%s.\n" % (os.path.basename(cases), folder)
    write_module(out, folder, SPECS_HEAD, source, answers, head_line, statements)


def main() -> None:
    """Writes the statements of all folders."""
    cases, out = words(__doc__, 2, 2)
    write(os.path.join(out, "proofs", "Opened.antt"), opened_file(OPENED))
    for folder in sorted(os.listdir(cases)):
        if os.path.exists(os.path.join(cases, folder, "about.txt")):
            write_folder(cases, out, folder)


if __name__ == "__main__":
    main()
