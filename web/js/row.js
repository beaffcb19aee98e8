"use strict";

// One set on a board: its name, what it is chosen by, its picture, its boundaries, and what is so
// at the probe.
{
    const { element, counted } = Daleribbon.tools;
    const { NumberLine, BoundaryList } = Daleribbon;

    /**
     * Options: `id`, `name`, `set`, `scale`, `board`, `head` the node beside the name, and what a
     * line takes. Calls the board's `probe(value)`, `link(value)` and `look(what)`.
     */
    class SetRow {
        constructor({ id, name, label = `Set ${name}`, set, scale, board, head = "", onPaint, onMove, ...drawing }) {
            Object.assign(this, { id, name, set, scale });
            const calls = { onProbe: (value) => board.probe(value), onLink: (value) => board.link(value), onWindow: (what) => board.look(what) };
            this.line = new NumberLine({ ...drawing, ...calls, set, scale, onPaint, onMove, name: `${label} on a number line` });
            this.list = new BoundaryList({ ...calls, onMove: onMove && ((from, to) => onMove(from, to, true)), format: drawing.format ?? String, name: `Boundaries of ${label}` });
            this.list.list.id = `${id}-boundaries`;
            this.badge = element("h3", { class: "badge" }, name);
            this.readout = element("p", { class: "readout", id: `${id}-readout` });
            this.node = element("section", { class: `row ${id.split("-").at(-1)}`, id: `${id}-row`, "aria-label": label },
                element("div", { class: "head" }, this.badge, head),
                element("div", { class: "picture" }, this.line.svg, this.readout),
                this.list.node);
        }

        /**
         * Whether the set is an old one, since the text beside it has a fault, or since it was made
         * of an old one.
         */
        get stale() {
            return this.node.classList.contains("stale");
        }

        set stale(isOld) {
            this.node.classList.toggle("stale", isOld);
        }

        draw() {
            this.line.draw();
            const { start, end } = this.scale;
            const part = this.set.part(start, end);
            this.list.show(part, this.set.boundariesLength());
            this.probe(this.line.probe);
        }

        probe(value) {
            this.line.probe = value;
            const number = this.set.boundariesUpTo(value);
            const inside = this.set.has(value);
            this.readout.classList.toggle("in", inside);
            this.readout.replaceChildren(
                element("span", { class: "verdict" }, element("b", {}, this.line.format(value)), inside ? " is in" : " is out"), " ",
                element("span", {}, `${counted(number, "boundary")} at or below: ${number % 2 === 1 ? "odd" : "even"}`));
        }

        link(value) {
            this.line.linked = value;
            this.list.link(value);
        }
    }

    /** Rows that share a window, a probe and what is pointed at. */
    class Board {
        constructor({ scale, fit }) {
            Object.assign(this, { scale, fit, rows: [], value: 0n, follows: true });
            this.onLook = () => {};
        }

        draw() {
            this.rows.forEach((row) => row.draw());
        }

        probe(value) {
            const most = this.scale.last - 1n;
            this.value = value > most ? most : value;
            const { start } = this.scale;
            this.scale.follow(this.value);
            this.rows.forEach((row) => row.probe(this.value));
            if (start === this.scale.start) {
                this.rows.forEach((row) => row.line.draw());
            } else {
                this.draw();
                this.onLook();
            }
        }

        link(value) {
            if (value !== this.linked) {
                this.linked = value;
                this.rows.forEach((row) => row.link(value));
                this.rows.forEach((row) => row.line.draw());
            }
        }

        /** Changes the window: in, out, left, right, or all that there is. */
        look(what) {
            this.follows = what === "fit";
            const { scale } = this;
            const acts = { in: () => scale.zoom(0.5), out: () => scale.zoom(2), left: () => scale.pan(-0.5), right: () => scale.pan(0.5), fit: () => this.fit() };
            acts[what]();
            this.draw();
            this.onLook();
        }

        /** Buttons that change the window. */
        buttons() {
            const names = [["left", "◀", "Move left"], ["right", "▶", "Move right"], ["out", "−", "Zoom out"], ["in", "+", "Zoom in"], ["fit", "fit", "Show everything"]];
            return element("div", { class: "window", role: "group", "aria-label": "Window" }, ...names.map(([what, sign, label]) => {
                const button = element("button", { type: "button", "aria-label": label, title: label }, sign);
                button.addEventListener("click", () => this.look(what));
                return button;
            }));
        }
    }

    Object.assign(Daleribbon, { SetRow, Board });
}
