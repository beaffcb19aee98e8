"use strict";

// Two sets that are typed or drawn, and the result of an operation on them.
{
    const { element, grouped } = Daleribbon.tools;
    const { Board, OperationChooser, Past, Scale, SetRow, TextField, pairs } = Daleribbon;

    const USUAL = 24n;
    const LONGEST_TEXT = 1200;
    const MOST_GAPS = 40;
    /** Up to how many ranges the text follows each move of the pointer. */
    const FEW = 200;
    /** The busy hours of two people, and what is asked of them: an operation and its words. */
    const HOURS = ["9..11, 13..15", "10..11, 14..17"];
    const ASKED = [["left,right,both", "one busy"], ["both", "both busy"], ["neither", "both free"]];
    /** Texts for A, and what each shows. */
    const EXAMPLES = [
        ["0..5, 5..10", "touching: one range"],
        ["0..5, 6..10", "5 is left out"],
        ["3..8, 4..6, 20..", "overlapping; no end"],
        ["12..4", "ends before it starts: empty"],
        ["1..2, 3..4, 5..6, 7..8", "four single numbers"],
    ];
    /** What to try first: the link that does it, the words of the link, and what is to be seen. */
    const STEPS = [
        ["#sets&a=0..5,5..10&b=&op=left,right,both", "Ranges that touch", "become one: no boundary is left at 5."],
        ["#sets&a=2..5,10..14&b=5..8,12..&op=left,right", "A △ B", "keeps each boundary that one of them alone has: 5 goes."],
        ["#sets&a=2..5,10..14&b=&op=right,neither", "not A", "has one boundary more, at 0, so that what was odd is even."],
    ];

    /** The text of 10,000 ranges with gaps between them. */
    function manyRanges() {
        let at = 0;
        const texts = Array.from({ length: 10000 }, (_, i) => {
            const start = at + 1 + ((i * 7919) % 13);
            at = start + 1 + ((i * 104729) % 11);
            return `${start}..${at}`;
        });
        return texts.join(", ");
    }

    class SetsView {
        constructor(library) {
            this.scale = new Scale(0n, USUAL);
            this.board = new Board({ scale: this.scale, fit: () => this.fit() });
            this.before = library.newSet();
            this.operation = new OperationChooser({ id: "sets", onChange: () => this.operated() });
            this.a = this.typedRow(library, "A", HOURS[0]);
            this.b = this.typedRow(library, "B", HOURS[1]);
            this.result = new SetRow({ id: "sets-result", name: "A ∪ B", label: "The result", set: library.newSet(), scale: this.scale, board: this.board });
            this.board.rows = [this.a, this.b, this.result];
            this.board.onLook = () => this.showFacts();
            this.past = new Past(this);
            this.factsCard = this.facts();
            this.node = element("div", {},
                element("div", { class: "card" }, this.story(), this.operation.node),
                element("div", { class: "card board" }, this.a.node, this.b.node, this.result.node, this.toolbar()),
                this.factsCard,
                element("div", { class: "card board" }, this.steps(), this.examples()));
            this.board.value = 10n;
            this.board.rows.forEach((row) => { row.line.probe = 10n; });
        }

        typedRow(library, name, text) {
            const id = `sets-${name.toLowerCase()}`;
            const field = new TextField({ id, name: `The ranges of ${name}`, onText: (typed, event) => this.typed(row, typed, event) });
            const row = new SetRow({
                id: `${id}`, name, set: library.newSet(text), scale: this.scale, board: this.board, head: field.node, endless: true,
                onPaint: (...range) => this.painted(row, ...range), onMove: (...move) => this.movedBoundary(row, ...move),
            });
            row.line.svg.setAttribute("aria-describedby", "sets-keys");
            field.input.addEventListener("blur", () => this.past.rest());
            row.field = field;
            row.text = field.text = text;
            return row;
        }

        /** The texts of both sets, as they were last read or drawn, and the operation. */
        get state() {
            return { a: this.a.text, b: this.b.text, op: this.operation.state };
        }

        set state({ a, b, op }) {
            this.a.field.text = a;
            this.b.field.text = b;
            this.operation.state = op;
            this.read(this.a, a);
            this.read(this.b, b);
            this.fitAndUpdate();
        }

        /** Whether a field has a text that isn't read as a set. */
        get faulty() {
            return this.a.stale || this.b.stale;
        }

        operated() {
            this.update();
            this.past.note();
        }

        /** The first content, and what can be asked of it. */
        story() {
            const [a, b] = HOURS.map((text) => text.replaceAll(" ", ""));
            const [one, both, free] = ASKED.map(([words, text]) => element("a", { href: `#sets&a=${a}&b=${b}&op=${words}` }, text));
            return element("p", { class: "story" }, "Busy hours of two people, A and B: when is ", one, ", when are ", both, " or ", free, "?");
        }

        steps() {
            const steps = STEPS.map(([href, words, seen]) => element("li", {}, element("a", { href }, words), ` ${seen}`));
            return element("div", { class: "steps" }, element("h2", {}, "Try it"), element("ol", {}, ...steps));
        }

        examples() {
            const examples = EXAMPLES.map(([text, shows]) => this.example(text, shows, text));
            const many = this.example("10,000 ranges", "drawn as shades", manyRanges());
            return element("div", { class: "examples", role: "group", "aria-labelledby": "sets-examples" }, element("span", { id: "sets-examples" }, "Set A to"), ...examples, many);
        }

        toolbar() {
            return element("div", { class: "toolbar" }, this.hints(), this.past.buttons(), this.board.buttons());
        }

        example(label, shows, text) {
            const button = element("button", { type: "button", class: "example" }, element("code", {}, label), " ", element("small", {}, shows));
            button.addEventListener("click", (event) => {
                this.a.field.text = text;
                this.typed(this.a, text, event);
                this.past.rest();
            });
            return button;
        }

        hints() {
            return element("div", { class: "hints" },
                element("p", {}, element("b", {}, "Draw"), " on A or B: drag to put a range in, drag from a member to take one out, drag a dot to move it, drag past the right edge for no end."),
                element("details", {}, element("summary", {}, "By keys"),
                    element("p", { id: "sets-keys" }, "On a line the arrows move the number that is asked about, and select with Shift; in a list they move a boundary. Enter puts the selection in, Delete takes it out, Escape drops it. + and − change the window, Ctrl+Z undoes.")));
        }

        facts() {
            const fact = (id, name, isLive = false) => {
                this[id] = element("dd", { id: `sets-${id}`, "aria-live": isLive ? "polite" : null });
                return [element("dt", {}, name), this[id]];
            };
            return element("dl", { class: "card facts" },
                ...fact("text", "Text", true), ...fact("members", "Members"), ...fact("ranges", "Ranges"), ...fact("gaps", "Gaps in the window"));
        }

        /** Reads a text into a set. One with a fault leaves the set as it was. */
        read(row, text) {
            const fault = row.set.parse(text);
            row.field.fault(fault);
            row.stale = fault !== null;
            if (!row.stale) {
                row.text = text;
            }
        }

        typed(row, text, event) {
            this.read(row, text);
            if (row.stale) {
                this.showStale();
            } else {
                this.fitAndUpdate();
            }
            this.past.note(row.id);
            Daleribbon.time(event);
        }

        fitAndUpdate() {
            if (this.board.follows) {
                this.fit();
            }
            this.update();
        }

        /** Keeps the set as it is before a gesture, to which each step of the gesture goes back. */
        begin(row, done) {
            if (!this.drawing) {
                this.before.copyFrom(row.set);
            }
            row.set.copyFrom(this.before);
            this.drawing = !done;
        }

        painted(row, start, end, inside, done) {
            this.begin(row, done);
            if (inside) {
                row.set.insert(start, end);
            } else {
                row.set.remove(start, end);
            }
            this.changed(row, done);
        }

        /** Moves a boundary: its range gets another start or end. An end of null is none. */
        movedBoundary(row, from, to, done) {
            this.begin(row, done);
            const starts = row.set.has(from);
            const [start, end] = row.set.rangeAt(starts ? from : from - 1n);
            row.set.remove(start, end);
            if (!starts) {
                row.set.insert(start, to);
            } else if (to !== null) {
                row.set.insert(to, end);
            }
            this.changed(row, done);
        }

        changed(row, done) {
            if (done || row.set.rangesLength() <= FEW) {
                row.text = row.field.text = row.set.toString();
                row.stale = false;
            }
            this.update();
            if (done) {
                this.past.note();
            }
        }

        /** Shows both sets, from the lowest boundary to the highest. */
        fit() {
            const ends = [this.a, this.b].flatMap((row) => row.set.ends() ?? []);
            const first = ends.reduce((a, b) => (a < b ? a : b), ends[0] ?? 0n);
            const last = ends.reduce((a, b) => (a > b ? a : b), 0n);
            if (last <= USUAL - 2n) {
                this.scale.show(0n, USUAL);
                return;
            }
            const room = (last - first) / 12n + 2n;
            const start = first < (last - first) / 3n || first < room ? 0n : first - room;
            this.scale.show(start, last - start + room);
        }

        update() {
            const { a, b, result, operation } = this;
            result.set.combine(a.set, b.set, operation.answers);
            result.badge.textContent = operation.sign;
            this.board.draw();
            this.showFacts();
            this.showStale();
        }

        /** Dims the result if it depends on a set whose text has a fault. */
        showStale() {
            const { a, b, result, operation } = this;
            result.stale = (a.stale && operation.dependsOnA) || (b.stale && operation.dependsOnB);
            this.factsCard.classList.toggle("stale", result.stale);
        }

        showFacts() {
            const { set } = this.result;
            const text = set.toString();
            const covered = set.covered();
            this.text.textContent = text.length > LONGEST_TEXT ? `${text.slice(0, LONGEST_TEXT)} …` : text || "nothing: no range";
            this.text.classList.toggle("none", text === "");
            this.members.textContent = covered === null ? "no end" : grouped(covered);
            this.ranges.textContent = grouped(set.rangesLength());
            this.showGaps([...pairs(set.gaps(this.scale.start, this.scale.end))]);
        }

        showGaps(gaps) {
            const shown = gaps.slice(0, MOST_GAPS).map(([start, end]) => `${start}..${end}`).join(", ");
            const more = gaps.length > MOST_GAPS ? `, and ${grouped(gaps.length - MOST_GAPS)} more` : "";
            this.gaps.textContent = shown === "" ? "none" : shown + more;
        }
    }

    Daleribbon.SetsView = SetsView;
}
