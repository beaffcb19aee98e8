"use strict";

// A set drawn on a number line: a ribbon where values are members, a filled dot where a range
// starts, an open one where it ends, an arrow if it has no end.
{
    const { shape, counted } = Daleribbon.tools;
    const { MARGIN, clamp } = Daleribbon;

    const HEIGHT = 88;
    const RIBBON = 34;
    const BEADS = 56;
    const AXIS = 66;
    /** Ranges narrower than this many pixels, on average, are drawn as shaded columns. */
    const NARROWEST = 7;
    const COLUMN = 2;
    /** How near to a dot the mouse, or a finger, takes hold of it. */
    const REACH = { mouse: 9, touch: 20, pen: 12 };

    const crisp = (x) => Math.round(x) + 0.5;

    /** The start and end of each range between boundaries; an end is null if there's none. */
    function* pairs(boundaries) {
        for (let i = 0; i < boundaries.length; i += 2) {
            yield [boundaries[i], i + 1 < boundaries.length ? boundaries[i + 1] : null];
        }
    }

    /**
     * Options: `set`, `scale`, `name` for screen readers, `format` of values, `tickFormat` of those
     * at the axis, `endless` whether a range without an end can be drawn. Callbacks:
     * `onProbe(value)`, `onLink(value or null)`, `onWindow(what)`; if the set can be changed
     * `onPaint(start, end, inside, done)`, and if its boundaries can be moved `onMove(from, to,
     * done)`.
     */
    class NumberLine {
        constructor(options) {
            Object.assign(this, { format: String, endless: false, probe: 0n, linked: null, selection: null, refused: null }, options);
            this.width = 0;
            this.gesture = null;
            this.drawn = new Set();
            this.layer = shape("g");
            this.ghosts = shape("g", { class: "ghosts" });
            this.svg = shape("svg", {
                class: this.editable ? "line editable" : "line", tabindex: "0", role: "slider", height: HEIGHT, "aria-label": this.name,
            });
            this.svg.append(this.layer, this.ghosts);
            this.listen();
        }

        get editable() {
            return this.onPaint !== undefined;
        }

        /**
         * Draws what there is. The page gives the width: to ask for it would lay the whole
         * page out for each line.
         */
        draw() {
            if (this.width === 0) {
                return;
            }
            const part = this.set.part(this.scale.start, this.scale.end);
            const dense = part.length / 2 > this.width / NARROWEST;
            this.layer.replaceChildren(
                ...this.guides(),
                ...this.axis(),
                ...(dense ? this.columns() : this.ranges(part)),
                ...(dense ? [] : this.beadRow()),
                ...this.marked(this.selection, "selection"),
                ...this.marked(this.refused, "refused"),
                ...(dense ? [] : this.dots(part)),
            );
            this.fadeOut(dense ? [] : [...part]);
            this.describe();
        }

        x(value) {
            return this.scale.x(value, this.width);
        }

        isShown(value) {
            return value >= this.scale.start && value <= this.scale.end;
        }

        axis() {
            const left = MARGIN / 2;
            const shapes = [shape("line", { class: "off", x1: left, x2: this.width - left, y1: RIBBON, y2: RIBBON })];
            const format = this.tickFormat ?? this.format;
            for (const tick of this.scale.ticks(this.width, format)) {
                const x = crisp(this.x(tick));
                shapes.push(shape("line", { class: "tick", x1: x, x2: x, y1: AXIS - 3, y2: AXIS + 2 }));
                shapes.push(shape("text", { class: "tick", x, y: AXIS + 15 }, format(tick)));
            }
            return shapes;
        }

        ranges(part) {
            return [...pairs(part)].flatMap(([start, end]) => this.range(start, end));
        }

        range(start, end) {
            const left = start < this.scale.start ? 0 : this.x(start);
            if (end === null) {
                const tip = this.width - 3;
                return [
                    shape("rect", { class: "on", x: left, width: tip - 12 - left, y: RIBBON - 4, height: 8 }),
                    shape("path", { class: "arrow", d: `M${tip - 13} ${RIBBON - 9}L${tip} ${RIBBON}L${tip - 13} ${RIBBON + 9}Z` }),
                ];
            }
            const right = end > this.scale.end ? this.width : this.x(end);
            return [shape("rect", { class: "on", x: left, width: Math.max(0, right - left), y: RIBBON - 4, height: 8 })];
        }

        /**
         * Too many ranges to tell apart: each column is shaded by whether none, some or all of its
         * values are members.
         */
        columns() {
            const wide = this.width - 2 * MARGIN;
            const many = Math.floor(wide / COLUMN);
            const paths = { 1: "", 2: "" };
            this.set.shades(this.scale.start, this.scale.end, many).forEach((shade, i) => {
                if (shade > 0n) {
                    paths[shade] += `M${(MARGIN + (i * wide) / many).toFixed(1)} ${RIBBON - 10}v20`;
                }
            });
            return [
                shape("path", { class: "some", d: paths[1], "stroke-width": COLUMN }),
                shape("path", { class: "all", d: paths[2], "stroke-width": COLUMN }),
            ];
        }

        /** The whole numbers themselves, if there is room: filled if they are members. */
        beadRow() {
            const wide = this.scale.stepWidth(this.width);
            if (wide < 9) {
                return [];
            }
            const { start, end, step } = this.scale;
            const many = Number((end - start) / step) + (end < this.scale.last ? 1 : 0);
            return Array.from({ length: many }, (_, i) => start + BigInt(i) * step).map((value) =>
                shape("circle", { class: this.set.has(value) ? "bead in" : "bead", cx: this.x(value), cy: BEADS, r: Math.min(3, wide / 4) }));
        }

        /** A frame round a range: what is being selected, or what was refused. */
        marked(range, name) {
            if (!range) {
                return [];
            }
            const left = this.x(range.start);
            const right = range.end === null ? this.width : this.x(range.end);
            return [shape("rect", { class: name, x: left, width: Math.max(2, right - left), y: 4, height: AXIS - 8, rx: 4 })];
        }

        /**
         * Lines down through the picture: at the value that is asked about, and at the boundary
         * that is pointed at.
         */
        guides() {
            const guide = (value, name) => {
                const x = crisp(this.x(value));
                return shape("line", { class: name, x1: x, x2: x, y1: 0, y2: HEIGHT });
            };
            return [
                ...(this.isShown(this.probe) ? [guide(this.probe, "probe")] : []),
                ...(this.linked !== null && this.isShown(this.linked) ? [guide(this.linked, "link")] : []),
            ];
        }

        dots(part) {
            const shown = [...part].map((value, i) => ({ value, starts: i % 2 === 0, x: this.x(value) })).filter((it) => this.isShown(it.value));
            const radius = this.radius(shown.map((it) => it.x));
            return [...shown.map((it) => this.dot(it, radius)), ...this.numbers(shown)];
        }

        /** How large dots are, so that they stay apart. */
        radius(places) {
            const gaps = places.slice(1).map((x, i) => x - places[i]);
            return Math.min(6, Math.max(2, Math.min(...gaps) / 2 - 1.5));
        }

        dot({ value, starts, x }, radius) {
            const names = ["dot", starts ? "start" : "end", value === this.linked ? "linked" : ""];
            return shape("circle", { class: names.join(" ").trim(), "data-value": value, cx: x, cy: RIBBON, r: radius, "stroke-width": radius / 2 });
        }

        /**
         * Counts the boundaries at or below the probe, above them: so one sees whether there is an
         * odd number.
         */
        numbers(shown) {
            const texts = [];
            let number = this.set.boundariesUpTo(this.probe);
            let free = Infinity;
            for (const { x } of shown.filter((it) => it.value <= this.probe).reverse()) {
                const text = String(number);
                const half = 2 + text.length * 4;
                if (x + half < free) {
                    texts.push(shape("text", { class: "number", x, y: 18 }, text));
                    free = x - half;
                }
                number -= 1;
            }
            return texts;
        }

        /**
         * Lets the dots of boundaries that are gone fade, if some are gone and not merely moved.
         */
        fadeOut(part) {
            const now = new Set(part);
            if (now.size < this.drawn.size && this.drawnAt === this.scale.start && this.drawnTo === this.scale.end) {
                const gone = [...this.drawn].filter((value) => !now.has(value) && this.isShown(value));
                for (const value of gone.slice(0, 40)) {
                    const ghost = shape("circle", { class: "ghost", "data-value": value, cx: this.x(value), cy: RIBBON, r: 6 });
                    ghost.addEventListener("animationend", () => ghost.remove());
                    this.ghosts.append(ghost);
                }
            }
            Object.assign(this, { drawn: now, drawnAt: this.scale.start, drawnTo: this.scale.end });
        }

        describe() {
            const number = this.set.boundariesUpTo(this.probe);
            const where = this.set.has(this.probe) ? "a member" : "no member";
            withValue(this.svg, this.scale, this.probe, `${this.format(this.probe)}: ${where}, ${counted(number, "boundary")} at or below`);
        }

        listen() {
            const { svg } = this;
            svg.addEventListener("pointerdown", (event) => this.press(event));
            svg.addEventListener("pointermove", (event) => this.moved(event));
            svg.addEventListener("pointerup", () => this.release());
            svg.addEventListener("pointercancel", () => this.cancel());
            svg.addEventListener("pointerleave", () => this.onLink(null));
            svg.addEventListener("keydown", (event) => this.key(event));
            new ResizeObserver(([{ contentRect }]) => {
                this.width = contentRect.width;
                this.draw();
            }).observe(svg);
        }

        /** The boundary that is near enough to a pointer. */
        boundaryAt(event) {
            const x = event.offsetX;
            const reach = REACH[event.pointerType] ?? REACH.mouse;
            const near = [...this.drawn].filter((value) => this.isShown(value) && Math.abs(this.x(value) - x) <= reach);
            return near.sort((a, b) => Math.abs(this.x(a) - x) - Math.abs(this.x(b) - x))[0] ?? null;
        }

        press(event) {
            if (event.button !== 0) {
                return;
            }
            const boundary = this.boundaryAt(event);
            const value = this.scale.value(event.offsetX, this.width);
            this.onProbe(value);
            if (this.editable) {
                const moves = this.onMove ? boundary : null;
                this.gesture = { moves, from: value, at: value, inside: !this.set.has(value), beyond: false, begun: false };
                this.svg.setPointerCapture(event.pointerId);
            }
        }

        moved(event) {
            const value = this.scale.value(event.offsetX, this.width);
            if (this.gesture === null) {
                this.onProbe(value);
                this.onLink(this.boundaryAt(event));
                return;
            }
            this.gesture.beyond = this.endless && event.offsetX > this.width - 4;
            this.gesture.at = value;
            this.gesture.begun ||= this.gesture.beyond || value !== this.gesture.from;
            this.go(false);
        }

        release() {
            this.go(true);
            this.gesture = null;
        }

        /** Leaves everything as it was before the pointer, or the keys, began. */
        cancel() {
            if (this.gesture !== null) {
                Object.assign(this.gesture, { at: this.gesture.moves ?? this.gesture.from, beyond: false });
                this.release();
            }
            this.selection = null;
            this.draw();
        }

        /** What the pointer has done so far: it moves a boundary, or draws a range in or out. */
        go(done) {
            if (!this.gesture?.begun) {
                return;
            }
            const { moves, from, at, inside, beyond } = this.gesture;
            if (moves !== null) {
                this.onMove(moves, beyond ? null : at, done);
                return;
            }
            const start = from < at ? from : at;
            const end = beyond ? null : from < at ? at : from;
            this.selection = done ? null : { start, end };
            this.onProbe(at);
            this.onPaint(start, end, inside, done);
            this.draw();
        }

        key(event) {
            const act = this.keys()[event.key];
            if (act === undefined || event.ctrlKey || event.metaKey || event.altKey) {
                return;
            }
            event.preventDefault();
            act(event.shiftKey);
        }

        keys() {
            const { step, start, end } = this.scale;
            const keys = {
                ArrowLeft: (selects) => this.step(-step, selects),
                ArrowRight: (selects) => this.step(step, selects),
                PageDown: (selects) => this.step(-10n * step, selects),
                PageUp: (selects) => this.step(10n * step, selects),
                Home: (selects) => this.step(start - this.probe, selects),
                End: (selects) => this.step(end - this.probe, selects),
                "+": () => this.onWindow("in"),
                "-": () => this.onWindow("out"),
            };
            if (this.editable) {
                Object.assign(keys, {
                    Enter: () => this.paintSelection(true),
                    Delete: () => this.paintSelection(false),
                    Backspace: () => this.paintSelection(false),
                    Escape: () => this.cancel(),
                });
            }
            return keys;
        }

        /** Moves the probe by a distance; if that selects, the selection grows with it. */
        step(distance, selects) {
            const value = clamp(this.probe + distance, 0n, this.scale.last);
            if (selects && this.editable) {
                this.anchor = this.selection === null ? this.probe : this.anchor;
                this.selection = value < this.anchor ? { start: value, end: this.anchor } : { start: this.anchor, end: value };
            } else {
                this.selection = null;
            }
            this.onProbe(value);
            this.draw();
        }

        paintSelection(inside) {
            const { start, end } = this.selection ?? { start: this.probe, end: this.probe + this.scale.step };
            this.selection = null;
            this.onPaint(start, end, inside, true);
        }
    }

    /** Says for a screen reader where a slider stands. */
    function withValue(svg, scale, value, text) {
        svg.setAttribute("aria-valuemin", scale.start);
        svg.setAttribute("aria-valuemax", scale.end);
        svg.setAttribute("aria-valuenow", value);
        svg.setAttribute("aria-valuetext", text);
    }

    Daleribbon.NumberLine = NumberLine;
    Daleribbon.pairs = pairs;
}
