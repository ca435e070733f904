#!/usr/bin/env python3
"""Plants the wrong bodies of docs/WRONG_BODIES.md one by one in a clone of what is committed, and shows what refuses
each: the prover, by a must-fail edit; the compiler; or cases that a program then answers otherwise than its file
`stdout` has. Prints a line for each body, and ends with status 0 only if all are refused.

usage: bench/wrong_bodies.py [NAME..]   all wrong bodies, or these; a part of one goes by its own name, too
       bench/wrong_bodies.py --list     their names, and the parts of each
       bench/wrong_bodies.py --check    whether each can be planted, without trying it

All of them take hours: an edit the check of its crate, a program a minute or two, since it is compiled with all that
it stands on. No program is proved before it runs. What is proved here of crates below is taken over.
"""
import os
import re
import subprocess
import sys
import tempfile

import edits

# Programs of cases, with what a case begins with in their files `stdin` and `stdout`. What stands before the first case
# goes by no heading.
LAYOUTS, PARTS = ("ftl_layout_cases", "=== "), ("ftl_parts_cases", "%")
NO_MEMORY = "Err::<(), std::alloc::AllocError>(std::alloc::AllocError)?;"


class Edit:
    """A must-fail edit, which the prover refuses."""

    def __init__(self, crate, name):
        self.crate, self.name = crate, name

    def file_of(self):
        """Where it stands."""
        return edits.chosen(self.crate, [self.name])[0]

    def check(self):
        """Ends with what stands against it, where anything does."""
        why = edits.changed(self.file_of(), self.crate)
        if isinstance(why, str):
            sys.exit(f"{self.name}: {why}")

    def refused(self, clone):
        """What refuses it, or nothing."""
        told, refused = edits.tried(clone.with_kept(self.crate), self.crate, [self.file_of()])
        print(told, end="", file=sys.stderr)
        return f"the contracts of {self.crate} ({self.name})" if refused else None


class Plant:
    """A changed source. What refuses it is a case of a program, or the compiler where there is none."""

    def __init__(self, name, file, old, new, program=PARTS, case=None):
        self.name, self.file, self.old, self.new = name, file, old, new
        self.program, self.case = program, case

    def planted(self, text):
        """The text of the file with the change."""
        if text.count(self.old) != 1:
            sys.exit(f"{self.name}: a text stands {text.count(self.old)} times in {self.file}: {self.old}")
        return text.replace(self.old, self.new)

    def check(self):
        """Ends with what stands against it, where anything does."""
        with open(os.path.join(edits.TOP, self.file), encoding="utf-8") as file:
            self.planted(file.read())
        case_of(*self.program, self.case or "")

    def ran(self, clone):
        """What a run gives, and what it is to print."""
        crate, mark = self.program
        given, wanted = case_of(crate, mark, self.case or "")
        return clone.run(self, crate, given, []), wanted

    def refused(self, clone):
        """What refuses it, or nothing."""
        (status, answer, said), wanted = self.ran(clone)
        if self.case is None:
            return f"the compiler ({first_error(said)})" if status is None and first_error(said) else None
        if status is None:
            sys.exit(f"{self.name}: the program did not run to its end\n{said[-2000:]}")
        if (status, answer) == (0, wanted):
            return None
        return f"a case of {self.program[0]} ({self.name}: {difference(status, answer, wanted)})"


class WantsMemory(Plant):
    """A call that always answers want of memory."""

    def __init__(self, name, file, head, program=LAYOUTS, case="run --workers 64 --grain 1", first=NO_MEMORY):
        super().__init__(name, file, head, first, program, case)

    def planted(self, text):
        """The text of the file, where the first statement of the call's body answers it."""
        found = re.search(re.escape(self.old) + r".*?\n *\{\n", text, re.S)
        if not found:
            sys.exit(f"{self.name}: {self.file} has no `{self.old}`")
        return text[: found.end()] + self.new + "\n" + text[found.end():]

    def ran(self, clone):
        """A command of a case is run by the layout program alone, which is sooner made."""
        if self.program != LAYOUTS:
            return super().ran(clone)
        given, wanted = case_of(*LAYOUTS, self.case)
        page, told = given.partition("\n")[2], wanted.partition("\n")[2]
        return clone.run(self, "ftl_layout", page, self.case.split()), told.removesuffix("status 0\n")


def shared(name):
    return Edit("ftl_cells", f"shared_{name}")


# The wrong bodies by name, each with its parts. docs/WRONG_BODIES.md says in words what each does.
BODIES = {
    "always_one_fault": [
        Edit("ftl_answer", "reading_requests_always_one_fault"),
        Edit("ftl_answer", "reading_requests_always_a_read_fault"),
        Edit("ftl_answer", "reading_requests_always_refuses_the_words"),
        Edit("ftl_answer", "headline_write_fault_without_cause"),
        Edit("ftl_answer", "headline_text_only_without_a_write_fault"),
    ],
    "bottomup_reads_inherited": [
        Edit("ftl_order", "faults_bottomup_reads_inherited"),
        Edit("ftl_order", "orders_bottomup_reads_inherited"),
        Edit("ftl_schedule", "places_bottomup_reads_inherited"),
    ],
    "refuses_passes_beside": [
        Edit("ftl_order", "faults_refuses_passes_beside"),
        Edit("ftl_schedule", "check_refuses_passes_beside"),
    ],
    "stuck_after_one_kind": [
        Edit("ftl_order", "automatic_stuck_after_one_kind"),
        Edit("ftl_scheduler", "outcomes_stuck_after_one_kind"),
    ],
    "counters_start_at_one": [shared("counters_start_at_one")],
    "delivers_before_mark": [shared("delivers_before_mark")],
    "claims_in_two_steps": [shared("claims_in_two_steps")],
    "sum_saturates": [Edit("ftl_base", "sum_saturates"), Edit("ftl_model", "layout_sum_saturates")],
    "fold_runs_backwards": [
        Edit("ftl_visit", "rule_values_fold_runs_backwards"),
        Edit("ftl_step_value", "value_fold_runs_backwards"),
    ],
    "take_answers_none": [
        Edit("ftl_pool", "take_answers_none"),
        Edit("ftl_pool", "none_where_the_own_deque_is_empty"),
        Edit("ftl_pool", "keeps_to_the_own_deque"),
    ],
    "left_without_load": [shared("left_without_load")],
    "close_fills_holes": [shared("close_fills_holes")],
    "locked_rows": [
        Plant(
            "locked_rows",
            "crates/ftl_cells/src/shared/atomic.rt",
            "        self.table.shared.load::<ReadPlay>(seat, 1 + cell as usize)",
            "        *std::sync::Mutex::new(self.table.shared.load::<ReadPlay>(seat, 1 + cell as usize)).lock(&())",
        )
    ],
    "computes_beside_the_cells": [Edit("ftl_steal", "computes_beside_the_cells")],
    "stage_is_one_item": [
        Edit("ftl_items", "stage_items_stage_is_one_item"),
        Edit("ftl_cursors", "items_stage_is_one_item"),
    ],
    "relayouts_edited_only": [
        Edit("ftl_relayout", "queue_relayouts_edited_only"),
        Edit("ftl_relayout", "relayouter_relayouts_edited_only"),
    ],
    "relayouts_everything": [
        Edit("ftl_relayout", "queue_relayouts_everything"),
        Edit("ftl_relayout", "relayouter_relayouts_everything"),
        Edit("ftl_relayout", "queue_computes_twice"),
    ],
    "one_thread_does_all": [
        Plant(
            "one_thread_does_all",
            "crates/ftl_steal/src/stage.rt",
            "    let threads = members.len();",
            "    let threads = members.len().min(1);",
            PARTS,
            "runs eight",
        )
    ],
    "released_items_stay": [
        Plant(
            "released_items_stay",
            "crates/ftl_pool/src/steal_pool.rt",
            "        if self.count.take(rt, &mut hold.tally) {",
            "        let own = hold.own.pop(); if own.is_some() && self.count.take(rt, &mut hold.tally) { return own; }"
            " if own.is_some() {",
            PARTS,
            "runs star",
        )
    ],
    "never_runs_a_stage": [
        Plant(
            "never_runs_a_stage",
            "crates/ftl_run/src/calls/workers.rt",
            "    let words = solve(rt, alloc, &plan, workers, gate)?;",
            "    let words = solve(rt, alloc, &plan, workers.min(1), gate)?;",
            LAYOUTS,
            "",
        )
    ],
    "always_wants_memory": [
        WantsMemory("requested", "crates/ftl_answer/src/reading/requests/words.rt", "pub fn requested<"),
        WantsMemory("read_all", "crates/ftl_edge/src/source.rt", "pub fn read_all<"),
        WantsMemory("split_page", "crates/ftl_page/src/sections/split.rt", "pub fn split_page("),
        WantsMemory("tokens", "crates/ftl_tokens/src/scanner/scan.rt", "pub fn tokens("),
        WantsMemory(
            "read_grammar",
            "crates/ftl_grammar/src/reading/read.rt",
            "pub fn read_grammar(",
            first="Err::<(), SyntaxFault>(SyntaxFault::OutOfMemory)?;",
        ),
        WantsMemory("check_grammar", "crates/ftl_checked/src/grammars/check.rt", "pub fn check_grammar("),
        WantsMemory("dep_table", "crates/ftl_deps/src/reads/table.rt", "pub fn dep_table("),
        WantsMemory("read_schedule", "crates/ftl_schedule/src/reading/read.rt", "pub fn read_schedule(", case="check"),
        WantsMemory("verify", "crates/ftl_schedule/src/check/check.rt", "pub fn verify<'a>(", case="check"),
        WantsMemory("find_schedule", "crates/ftl_scheduler/src/finding/find.rt", "pub fn find_schedule<'a>("),
        WantsMemory(
            "print_schedule",
            "crates/ftl_schedule/src/printing/print.rt",
            "pub fn print_schedule(",
            case="schedule",
        ),
        WantsMemory("compile", "crates/ftl_visit/src/compiled/compiling.rt", "pub fn compile("),
        WantsMemory("visit_list", "crates/ftl_visit/src/visits/visit.rt", "pub fn visit_list("),
        WantsMemory("read_document", "crates/ftl_document/src/reading/read.rt", "pub fn read_document<"),
        WantsMemory(
            "sample_page",
            "crates/ftl_boxes/src/sample.rt",
            "pub fn sample_page(",
            case="sample 2 --grammar stack",
        ),
        WantsMemory("plan_new", "crates/ftl_plan/src/plans/plan.rt", "pub fn new("),
        WantsMemory("first_words", "crates/ftl_plan/src/plans/plan.rt", "pub fn first_words("),
        WantsMemory("run_alone", "crates/ftl_steal/src/alone.rt", "pub fn run_alone<", case="run"),
        WantsMemory("cells_open", "crates/ftl_cells/src/shared/open.rt", "pub fn open("),
        WantsMemory("run_stage", "crates/ftl_steal/src/stage.rt", "pub fn run_stage<"),
        WantsMemory("run_lots", "crates/ftl_lots/src/run/phases.rt", "pub fn run_lots<", case=""),
        WantsMemory("noncircular", "crates/ftl_noncircular/src/search/searching.rt", "pub fn noncircular<", case="demand"),
        WantsMemory("solve_by_demand", "crates/ftl_demand/src/demand/solve.rt", "pub fn solve_by_demand(", case="demand"),
        WantsMemory("read_edits", "crates/ftl_edits/src/reading/read.rt", "pub fn read_edits(", case="edit"),
        WantsMemory("relayouter_new", "crates/ftl_relayout/src/relayouter/call.rt", "pub fn new(", case="edit"),
        WantsMemory("relayout", "crates/ftl_relayout/src/relayouter/call.rt", "pub fn relayout(", case="edit"),
        WantsMemory("steal_pool_new", "crates/ftl_pool/src/steal_pool.rt", "pub fn new("),
        WantsMemory("flag_pool_new", "crates/ftl_pool/src/flag_pool.rt", "pub fn new(", PARTS, "pools"),
        WantsMemory("print_boxes", "crates/ftl_tree/src/boxes/print.rt", "pub fn print_boxes("),
        WantsMemory(
            "replay",
            "crates/ftl_replay/src/interleavings/interleaving.rt",
            "pub fn replay<",
            PARTS,
            "calls two hands fill the diamond",
        ),
    ],
}


def case_of(program, mark, heading):
    """What stands in the files `stdin` and `stdout` of a program for the first case of a heading."""
    texts = []
    for stream in ["stdin", "stdout"]:
        with open(os.path.join(edits.TOP, "crates", program, stream), encoding="utf-8") as file:
            before, *cases = re.split(rf"^{re.escape(mark)}", file.read(), flags=re.M)
        found = [mark + case for case in cases if case.partition("\n")[0] == heading]
        if heading and not found:
            sys.exit(f"{program} has no case {heading} in its file {stream}")
        texts.append(found[0] if heading else before)
    return texts


def difference(status, answer, wanted):
    """Where what a program printed differs first from what it was to print."""
    has, wants = answer.split("\n"), wanted.split("\n")
    at = next((at for at, (one, other) in enumerate(zip(has, wants)) if one != other), min(len(has), len(wants)) - 1)
    return f"it prints `{has[at]}` for `{wants[at]}`" if answer != wanted else f"it ends with status {status}"


def first_error(said):
    """The first error of a compiler, without where it stands."""
    found = re.search(r"error(?:\[[\w-]+\])?: (.*)", said)
    return found[1] if found else ""


class Clone:
    """A clone of what is committed, in a folder, with what is kept of the crates that were asked for."""

    def __init__(self, folder):
        self.top, self.lines, self.kept = edits.cloned(folder, []), edits.crates(), set()

    def with_kept(self, crate):
        """The clone, with what is kept of the crates that this one stands on."""
        for below in edits.stands_on(crate, self.lines):
            if below not in self.kept:
                edits.copy_kept(below, self.top)
                self.kept.add(below)
        return self.top

    def run(self, plant, program, given, arguments):
        """Runs a program unproved on this input, with a changed source. Its status, none where it doesn't run to its
        end, what it prints and what is told of it."""
        with open(os.path.join(self.top, plant.file), "r+", encoding="utf-8") as file:
            text = plant.planted(file.read())
            file.seek(0)
            file.truncate()
            file.write(text)
        words = ["rt", "try", "--steps", "1", "--seconds", "600", "--", *arguments]
        where = os.path.join(self.top, "crates", program)
        done = subprocess.run(words, cwd=where, input=given, stdout=subprocess.PIPE, stderr=subprocess.PIPE, text=True)
        subprocess.run(["git", "checkout", "--quiet", "--", plant.file], cwd=self.top, check=True)
        ended = re.search(r"^run=ended status=(\d+)", done.stderr, re.M)
        return int(ended[1]) if ended else None, done.stdout, done.stderr


def chosen(names):
    """The bodies of these names with their parts, all where there are no names; of a part its body with that alone."""
    if not names:
        return BODIES
    unknown = [name for name in names if not any(has_name(body, part, [name]) for body, part in all_parts())]
    if unknown:
        sys.exit(f"no wrong body is called {unknown[0]}")
    found = {body: [part for part in parts if has_name(body, part, names)] for body, parts in BODIES.items()}
    return {body: parts for body, parts in found.items() if parts}


def all_parts():
    """Each part of each body, with the name of the body."""
    return [(body, part) for body, parts in BODIES.items() for part in parts]


def has_name(body, part, names):
    """Whether a part or its body has one of these names."""
    return body in names or part.name in names


def is_refused(clone, body, parts):
    """Prints what refuses each part of a body, and whether each is refused."""
    told = [(part.name, part.refused(clone)) for part in parts]
    passes = [name for name, by in told if not by]
    by = "; ".join(by for _, by in told if by)
    print(f"{body}: {'NOT REFUSED: ' + ' '.join(passes) if passes else 'refused by ' + by}", flush=True)
    return not passes


def main():
    if sys.argv[1:] in (["--list"], ["--check"]):
        for body, parts in BODIES.items():
            print(f"{body}: {' '.join(part.name for part in parts)}")
            if sys.argv[1] == "--check":
                for part in parts:
                    part.check()
        return
    with tempfile.TemporaryDirectory() as folder:
        clone = Clone(os.path.join(folder, "clone"))
        refused = [is_refused(clone, body, parts) for body, parts in chosen(sys.argv[1:]).items()]
    sys.exit(0 if all(refused) else 1)


if __name__ == "__main__":
    main()
