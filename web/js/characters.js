"use strict";

// Two classes of characters, and the result of an operation on them.
{
    const { element, grouped } = Daleribbon.tools;
    const { Board, INTERSECTION, OperationChooser, Past, Scale, SetRow, pairs } = Daleribbon;

    const CODE_POINTS = 0x110000n;
    /** How many characters are shown at first, and with each more that are asked for. */
    const CELLS = 256;
    const HAS_NO_SHAPE = /[\p{C}\p{Z}]/u;
    const COMBINES = /\p{M}/u;
    const KINDS = { gc: "General categories", sc: "Scripts" };

    const hex = (value) => value.toString(16).toUpperCase().padStart(4, "0");
    const codePoint = (value) => `U+${hex(value)}`;

    /** The text of a class. One that is made up of others has the text of all of them. */
    function textOf(it) {
        return Array.isArray(it.ranges) ? it.ranges.map((id) => textOf(classOf(id))).join(",") : it.ranges;
    }

    const classOf = (id) => Daleribbon.unicode.classes.find((it) => it.id === id);

    /** The first members of a set, at most `most`. */
    function firstMembers(set, most) {
        const members = [];
        for (const [start, end] of pairs(set.boundaries())) {
            for (let value = start; value < end && members.length < most; value += 1n) {
                members.push(value);
            }
        }
        return members;
    }

    /** What is seen of a character: nothing of a control or space, a mark on a dotted circle. */
    function glyph(value) {
        const character = String.fromCodePoint(Number(value));
        if (HAS_NO_SHAPE.test(character)) {
            return "";
        }
        return COMBINES.test(character) ? `◌${character}` : character;
    }

    class CharactersView {
        constructor(library) {
            this.scale = new Scale(0n, CODE_POINTS, { last: CODE_POINTS, binary: true });
            this.board = new Board({ scale: this.scale, fit: () => this.fit() });
            this.universe = library.newSet(`0..${CODE_POINTS}`);
            this.operation = new OperationChooser({ id: "characters", answers: INTERSECTION, onChange: () => this.changed() });
            this.a = this.classRow(library, "A", "Grek");
            this.b = this.classRow(library, "B", "Lu");
            this.result = this.row(library, "result", "A ∩ B", "The result");
            this.board.rows = [this.a, this.b, this.result];
            this.board.value = 0x391n;
            this.board.rows.forEach((row) => { row.line.probe = 0x391n; });
            this.past = new Past(this);
            this.build();
            this.update();
        }

        /** The classes and the operation. A class that isn't known leaves the one before. */
        get state() {
            return { a: this.a.select.value, b: this.b.select.value, op: this.operation.state };
        }

        set state({ a, b, op }) {
            for (const [row, id] of [[this.a, a], [this.b, b]]) {
                row.select.value = classOf(id) ? id : row.select.value;
                row.read();
            }
            this.operation.state = op;
            this.update();
        }

        changed() {
            this.update();
            this.past.note();
        }

        row(library, id, name, label, head) {
            return new SetRow({
                id: `characters-${id}`, name, label, head, set: library.newSet(), scale: this.scale, board: this.board,
                format: codePoint, tickFormat: hex,
            });
        }

        classRow(library, name, id) {
            const select = element("select", { id: `characters-${name.toLowerCase()}-class`, "aria-label": `The class ${name}` });
            for (const [kind, label] of Object.entries(KINDS)) {
                const classes = Daleribbon.unicode.classes.filter((it) => it.kind === kind);
                select.append(element("optgroup", { label }, ...classes.map((it) => element("option", { value: it.id }, kind === "gc" ? `${it.id}: ${it.name}` : it.name))));
            }
            select.value = id;
            const row = this.row(library, name.toLowerCase(), name, `Class ${name}`, element("div", { class: "field" }, select));
            row.select = select;
            row.read = () => row.set.parse(textOf(classOf(select.value)));
            row.read();
            select.addEventListener("change", () => {
                row.read();
                this.changed();
            });
            return row;
        }

        build() {
            this.count = element("p", { class: "count", id: "characters-count", "aria-live": "polite" });
            this.cells = element("ol", { class: "cells", id: "characters-cells", "aria-label": "The characters of the result" });
            this.more = element("button", { type: "button" }, "More");
            this.more.addEventListener("click", () => this.showCells(this.cells.children.length + CELLS));
            this.node = element("div", {},
                element("div", { class: "card" }, this.operation.node),
                element("div", { class: "card board" },
                    element("div", { class: "toolbar" }, element("span", { class: "version" }, `Unicode ${Daleribbon.unicode.version}`), this.past.buttons(), this.board.buttons()),
                    this.a.node, this.b.node, this.result.node),
                element("div", { class: "card characters" }, this.count, this.cells, this.more));
        }

        /** Shows the result from its first to its last boundary, or everything if it's empty. */
        fit() {
            const ends = this.result.set.ends();
            if (ends === null) {
                this.scale.show(0n, CODE_POINTS);
                return;
            }
            const [first, last] = ends;
            const room = (last - first) / 20n + 2n;
            const start = first > room ? first - room : 0n;
            this.scale.show(start, last - start + room);
        }

        update() {
            const { a, b, result, operation, universe } = this;
            result.set.combine(a.set, b.set, operation.answers);
            result.set.combine(result.set, universe, INTERSECTION);
            result.badge.textContent = operation.sign;
            if (this.board.follows) {
                this.fit();
            }
            this.board.draw();
            this.count.textContent = `${grouped(result.set.covered())} code points, ${grouped(result.set.rangesLength())} ranges`;
            this.showCells(CELLS);
        }

        showCells(most) {
            const cells = firstMembers(this.result.set, most).map((value) =>
                element("li", { class: glyph(value) === "" ? "shapeless" : "", title: codePoint(value) }, element("span", {}, glyph(value)), element("small", {}, hex(value))));
            this.cells.replaceChildren(...cells);
            this.more.hidden = BigInt(cells.length) >= this.result.set.covered();
        }
    }

    Daleribbon.CharactersView = CharactersView;
}
