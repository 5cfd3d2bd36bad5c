"""Lines of the page and what is put in their place, with the test that must then fail."""

from __future__ import annotations

from dataclasses import dataclass


@dataclass(frozen=True)
class Wrong:
    """A line of a source, what stands in its place, and the test that must fail."""

    name: str
    file: str
    old: str
    new: str
    test: str


STORE, DRAFTS, ESTIMATES = "store/store.ts", "store/drafts.ts", "experiments/statistics.ts"
EXCERPTS = "text/excerpts.ts"
WRONG = (
    Wrong(
        "runs_the_text_before_it_is_checked",
        STORE,
        'const verdict = await this.check();\n    if (verdict.state === "accepted") return',
        'const verdict = this.verdict;\n    if (verdict.state === "accepted") return',
        "store",
    ),
    Wrong(
        "runs_without_what_is_typed_in_forms",
        STORE,
        "const problem = await this.commit_forms();",
        "const problem = null as string | null;",
        "store",
    ),
    Wrong(
        "takes_an_older_model_for_a_new_revision",
        STORE,
        "if (revision !== this.revision) return this.check();",
        "",
        "store",
    ),
    Wrong(
        "calls_no_result_old",
        STORE,
        'return this.verdict.state !== "accepted" || this.verdict.model.text !== snapshot.model.text;',
        "return false;",
        "store",
    ),
    Wrong(
        "calls_a_result_old_after_a_comment",
        STORE,
        'return this.verdict.state !== "accepted" || this.verdict.model.text !== snapshot.model.text;',
        "return true;",
        "store",
    ),
    Wrong(
        "forgets_that_settings_changed",
        STORE,
        "asked = now === null || JSON.stringify(now) !== JSON.stringify(made.settings)",
        "asked = false",
        "store",
    ),
    Wrong(
        "shows_results_beside_another_document",
        STORE,
        "this.go({ doc: { ...doc, id: ++this.documents }, label",
        "this.go({ doc: { ...doc, id: this.doc.id }, label",
        "store",
    ),
    Wrong(
        "keeps_the_file_name_past_open",
        STORE,
        "return step.doc.id === id ? { ...step, doc: { ...step.doc, file, saved, settings, versions } } : step;",
        "return { ...step, doc: { ...step.doc, file, saved, settings, versions } };",
        "store",
    ),
    Wrong(
        "keeps_the_model_of_another_file",
        STORE,
        "if (step.doc.id !== before.id) this.shown = null;",
        "",
        "store",
    ),
    Wrong("shares_drafts", DRAFTS, "const { id } = this.store.doc;", "const id = 0;", "store"),
    Wrong(
        "drops_a_refused_change",
        DRAFTS,
        'if (drafts.length === 1 && verdict.state === "refused") explain(',
        'this.remove(id, drafts[0][0]);\n      if (drafts.length === 1 && verdict.state === "refused") explain(',
        "store",
    ),
    Wrong(
        "loses_what_was_typed_meanwhile",
        STORE,
        "if (this.revision === revision) return { text, verdict };",
        "return { text, verdict };",
        "store",
    ),
    Wrong(
        "writes_into_another_document",
        STORE,
        "if (this.doc.id !== id) return null;",
        "",
        "store",
    ),
    Wrong(
        "reads_1e6_as_another_number",
        "store/settings.ts",
        "10n ** BigInt(power - part.length)",
        "10n ** BigInt(power + 1)",
        "store",
    ),
    Wrong(
        "divides_by_n",
        ESTIMATES,
        "Math.sqrt(second / (n - 1))",
        "Math.sqrt(second / n)",
        "lab",
    ),
    Wrong(
        "takes_n_degrees_of_freedom",
        ESTIMATES,
        "t = student(n - 1, level)",
        "t = student(n, level)",
        "lab",
    ),
    Wrong(
        "moves_to_the_wrong_side", ESTIMATES, "slope * (t - slope)", "slope * (t + slope)", "lab"
    ),
    Wrong(
        "multiplies_all_by_the_number_of_comparisons",
        ESTIMATES,
        "p * (order.length - rank)",
        "p * order.length",
        "lab",
    ),
    Wrong(
        "takes_the_other_design_away",
        ESTIMATES,
        "(value, k) => value - a[k]",
        "(value, k) => a[k] - value",
        "lab",
    ),
    Wrong(
        "ends_a_quantile_one_value_early",
        ESTIMATES,
        "binomial(k - 1, n, p) >= 1 - half",
        "binomial(k, n, p) >= 1 - half",
        "lab",
    ),
    Wrong(
        "ends_a_share_too_low",
        ESTIMATES,
        "beta_part(p, ones + 1, runs - ones)",
        "beta_part(p, ones, runs - ones + 1)",
        "lab",
    ),
    Wrong(
        "gives_equal_values_an_interval",
        ESTIMATES,
        "if (least === greatest) return",
        "if (least > greatest) return",
        "lab",
    ),
    Wrong(
        "forgets_the_time_of_a_run",
        "engine/report.ts",
        "time > 0 ? item.area![k] / time",
        "time > 0 ? item.area![k]",
        "lab",
    ),
    Wrong(
        "counts_the_warm_up",
        "engine/report.ts",
        "times: less(whole.times, early.times)!",
        "times: whole.times",
        "lab",
    ),
    Wrong(
        "takes_neighbouring_seeds",
        "engine/replicate.ts",
        "BigInt(k) * BigInt(stride)",
        "BigInt(k)",
        "engine",
    ),
    Wrong(
        "joins_pieces_as_they_come",
        "engine/replicate.ts",
        "pieces.sort((a, b) => a.from - b.from);",
        "pieces.sort((a, b) => b.from - a.from);",
        "engine",
    ),
    Wrong(
        "names_the_event_after_the_fault",
        "run/fault.ts",
        "  return none;\n}",
        "  return none - 1;\n}",
        "engine",
    ),
    Wrong(
        "begins_each_day_at_midnight",
        "run/clock.ts",
        "const all = begin + time * length",
        "const all = time * length",
        "words",
    ),
    Wrong(
        "unpacks_links_without_end",
        "shell/links.ts",
        "if (size > most) {",
        "if (size > 2 * most) {",
        "words",
    ),
    Wrong(
        "draws_from_used_streams",
        "text/templates.ts",
        "if (!used.has(String(stream))) free.push(stream);",
        "free.push(stream);",
        "words",
    ),
    Wrong(
        "finds_no_shared_stream",
        "problems/findings.ts",
        "=== first)).length < 2) return [];",
        "=== first)).length < 3) return [];",
        "problems",
    ),
    Wrong(
        "points_at_another_edge",
        "problems/findings.ts",
        'const edge = ({ from, place }: Edge): Where => ({ kind: "edge", from, place });',
        'const edge = ({ from }: Edge): Where => ({ kind: "edge", from, place: 0 });',
        "problems",
    ),
    Wrong(
        "loses_comments_of_what_stays",
        "text/carry.ts",
        'fate[k] === "keep" ? []',
        "fate[k] === fate[0] ? []",
        "carry",
    ),
    Wrong(
        "undoes_what_is_saved",
        STORE,
        "return step.doc.id === id ? {",
        "return step.doc.id < id ? {",
        "store",
    ),
    Wrong(
        "keeps_a_result_with_the_open_document",
        STORE,
        "keep(document: number, value: T): void { this.all.set(document, value); }",
        "keep(document: number, value: T): void { this.now = value; }",
        "pieces",
    ),
    Wrong(
        "makes_events_of_a_piece_twice",
        "run/pieces.ts",
        "String(end - done)",
        "String(end)",
        "pieces",
    ),
    Wrong(
        "loses_the_title_of_an_item",
        "text/edits.ts",
        "return [...shown, ...kept,",
        "return [...kept,",
        "words",
    ),
    Wrong(
        "takes_any_word_for_an_answer",
        "compare/verdict.ts",
        "if (answer.failure || STATUSES[word] !== answer.status)",
        "if (answer.failure)",
        "compare",
    ),
    Wrong(
        "compares_with_what_was_chosen_before",
        "compare/comparing.ts",
        "second = other_now !== other.text",
        "second = other_now === null",
        "compare",
    ),
    Wrong(
        "shows_histories_of_another_run",
        "compare/comparing.ts",
        "{ ...asked, seed })",
        "asked)",
        "compare",
    ),
    Wrong(
        "offers_names_in_comments",
        "text/completion.ts",
        'if (line.includes("#") || ',
        "if (",
        "completion",
    ),
    Wrong(
        "leads_edges_of_copies_to_the_old_events",
        EXCERPTS,
        "as const), ...names]);",
        "as const)]);",
        "excerpts",
    ),
    Wrong(
        "declares_what_is_declared",
        EXCERPTS,
        "list.filter(each => !kinds.has(each.name.word))",
        "list",
        "excerpts",
    ),
    Wrong(
        "gives_a_copy_the_name_of_another_copy",
        EXCERPTS,
        "name_not_in(taken, word)",
        "name_not_in(used, word)",
        "excerpts",
    ),
    Wrong(
        "takes_any_text_with_an_event_for_an_excerpt",
        EXCERPTS,
        "are_whole && vertices.length > 0 && inside === tokens_of(text).length",
        "are_whole && vertices.length > 0",
        "excerpts",
    ),
    Wrong(
        "counts_the_events_of_a_piece_alone",
        "run/stops.ts",
        "event: done + found",
        "event: found",
        "stops",
    ),
    Wrong(
        "forgets_between_pieces_that_a_condition_held",
        "run/stops.ts",
        "held = answer.data!.held;",
        "held = false;",
        "stops",
    ),
    Wrong(
        "finds_again_what_held_before",
        "engine/stopping.ts",
        "return this.held && !before;",
        "return this.held;",
        "stops",
    ),
    Wrong(
        "compares_rounded_numbers",
        "engine/stopping.ts",
        "(number_of(value), BigInt",
        "(BigInt(Number(number_of(value))), BigInt",
        "stops",
    ),
)
