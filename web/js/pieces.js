"use strict";

// A file whose pieces arrive in any order, in a tracker that keeps no more boundaries than its
// limit.
{
    const { element, grouped, counted } = Daleribbon.tools;
    const { Board, Past, Scale, SetRow } = Daleribbon;

    const PIECE = 1024n;
    const PIECES = 64;
    const LENGTH = PIECE * BigInt(PIECES);
    /** Of random pieces, one in twenty is refused by it. */
    const LIMIT = 32;
    const MOST_LIMIT = 64;
    const LOGGED = 7;
    const PAUSE = 320;

    const anyOf = (list) => list[Math.floor(Math.random() * list.length)];
    const kibi = (value) => `${value / 1024n} KiB`;

    class PiecesView {
        constructor(library) {
            this.tracker = library.tracker;
            this.commands = [];
            this.scale = new Scale(0n, LENGTH, { step: PIECE, last: LENGTH, binary: true });
            this.board = new Board({ scale: this.scale, fit: () => this.scale.show(0n, LENGTH) });
            this.there = this.row(library, "there", "There", { onPaint: (start, end, inside, done) => this.painted(start, end, inside, done) });
            this.missing = this.row(library, "missing", "Missing", {});
            this.board.rows = [this.there, this.missing];
            this.limit = element("input", { type: "range", id: "pieces-limit", min: 2, max: MOST_LIMIT, value: LIMIT });
            this.past = new Past(this);
            this.build();
            this.begin();
        }

        /**
         * The limit and the commands: a piece that arrived is its range, and one that was lost has
         * a minus before it.
         */
        get state() {
            return { limit: this.limit.value, did: this.commands.map(({ records, start, end }) => `${records ? "" : "-"}${start}..${end}`).join(", ") };
        }

        /** Ranges that aren't of the file are left out. */
        set state({ limit, did }) {
            // Of what is no number the slider would make one in its middle.
            this.limit.value = /^\d+$/.test(limit) ? limit : LIMIT;
            this.commands = [...did.matchAll(/(-?)\b(\d+)\.\.(\d+)/g)]
                .map(([, minus, start, end]) => ({ records: minus === "", start: BigInt(start), end: BigInt(end) }))
                .filter(({ start, end }) => start < end && end <= LENGTH);
            this.begin();
        }

        row(library, id, name, more) {
            return new SetRow({
                id: `pieces-${id}`, name, label: `What is ${id}`, set: library.newSet(), scale: this.scale, board: this.board,
                format: grouped, tickFormat: kibi, ...more,
            });
        }

        build() {
            this.progress = element("progress", { id: "pieces-progress", max: LENGTH, value: 0, "aria-label": "Received" });
            this.percent = element("p", { class: "percent", id: "pieces-received" });
            this.slots = element("ol", { class: "slots", id: "pieces-slots" });
            this.used = element("p", { class: "used", id: "pieces-used" });
            this.answer = element("p", { class: "answer", id: "pieces-answer", role: "status" });
            this.log = element("ol", { class: "log", id: "pieces-log", "aria-label": "The last commands" });
            this.node = element("div", {},
                element("div", { class: "card controls" }, this.buttons(), this.limitField()),
                element("div", { class: "card progress" }, this.progress, this.percent),
                element("div", { class: "card board" }, element("div", { class: "toolbar" }, this.past.buttons(), this.board.buttons()), this.there.node, this.missing.node),
                element("div", { class: "card meter" }, element("h3", {}, "Boundaries"), this.slots, this.used, this.answer, this.log));
        }

        buttons() {
            const button = (id, text, act) => {
                const node = element("button", { type: "button", id: `pieces-${id}` }, text);
                node.addEventListener("click", act);
                return node;
            };
            this.play = button("play", "Play", () => this.toggle());
            return element("div", { class: "buttons" },
                button("next", "Next piece", () => this.next()), button("random", "Random piece", () => this.random()),
                button("lose", "Lose a piece", () => this.lose()), this.play, button("again", "Start again", () => this.again()));
        }

        limitField() {
            this.limitText = element("output", { for: "pieces-limit" }, String(LIMIT));
            this.limit.addEventListener("input", () => {
                this.begin();
                this.past.note("limit");
            });
            return element("label", { class: "limit" }, "Limit", this.limit, this.limitText);
        }

        /** Takes all commands once more, under the limit that is chosen. */
        begin() {
            this.limitText.textContent = this.limit.value;
            this.tracker.begin(Number(this.limit.value));
            this.commands.forEach((command) => { command.needed = this.take(command); });
            this.show();
        }

        take({ records, start, end }) {
            return records ? this.tracker.record(start, end) : this.tracker.forget(start, end);
        }

        /** Takes a command. Those of one kind in a row are undone together. */
        command(records, start, end, kind = null) {
            const command = { records, start, end };
            command.needed = this.take(command);
            this.commands.push(command);
            this.show();
            this.past.note(kind);
        }

        painted(start, end, inside, done) {
            if (done && start < end) {
                this.command(inside, start, end);
            }
        }

        /** The pieces of which all offsets are there, or some aren't. */
        pieces(there) {
            const starts = Array.from({ length: PIECES }, (_, i) => BigInt(i) * PIECE);
            return starts.filter((start) => this.tracker.has(start, start + PIECE) === there);
        }

        arrive(start, kind) {
            if (start === undefined) {
                this.answer.textContent = "Every piece is there.";
                return;
            }
            this.command(true, start, start + PIECE, kind);
        }

        next() {
            this.arrive(this.pieces(false)[0]);
        }

        random(kind) {
            this.arrive(anyOf(this.pieces(false)), kind);
        }

        lose() {
            const start = anyOf(this.pieces(true));
            if (start === undefined) {
                this.answer.textContent = "No piece is there that could be lost.";
                return;
            }
            this.command(false, start, start + PIECE);
        }

        again() {
            this.commands = [];
            this.begin();
            this.past.note();
        }

        /** Lets random pieces arrive until every one is there. */
        toggle() {
            clearInterval(this.timer);
            this.past.rest();
            const plays = this.timer === undefined;
            this.timer = plays ? setInterval(() => this.tick(), PAUSE) : undefined;
            this.play.textContent = plays ? "Pause" : "Play";
        }

        tick() {
            if (this.pieces(false).length === 0) {
                this.toggle();
            } else {
                this.random("play");
            }
        }

        show() {
            const last = this.commands.at(-1);
            const received = this.tracker.received();
            this.tracker.copyReceivedTo(this.there.set);
            this.tracker.copyMissingTo(this.missing.set, LENGTH);
            this.progress.value = Number(received);
            this.percent.textContent = `${grouped(received)} of ${grouped(LENGTH)} bytes`;
            this.there.line.refused = last?.needed ? last : null;
            this.board.draw();
            this.showSlots(last);
            this.showAnswer(last);
            this.showLog();
        }

        /**
         * A place for each boundary that the limit allows, and those that a refused command would
         * have taken beyond it.
         */
        showSlots(last) {
            const limit = Number(this.limit.value);
            const used = this.there.set.boundariesLength();
            const beyond = last?.needed ? last.needed - limit : 0;
            const places = Array.from({ length: limit + beyond }, (_, i) => (i < used ? "slot used" : i < limit ? "slot" : "slot beyond"));
            this.slots.replaceChildren(...places.map((name) => element("li", { class: name })));
            this.used.textContent = `${used} of ${limit}`;
        }

        showAnswer(last) {
            this.answer.classList.toggle("refused", Boolean(last?.needed));
            if (last === undefined) {
                this.answer.textContent = "No piece has arrived.";
            } else if (last.needed) {
                this.answer.textContent = `Refused: it would take ${counted(last.needed, "boundary")}, and the limit is ${this.limit.value}. Nothing has changed.`;
            } else {
                this.answer.textContent = `${last.records ? "Arrived" : "Lost"}: ${grouped(last.start)}..${grouped(last.end)}.`;
            }
        }

        showLog() {
            const lines = this.commands.slice(-LOGGED).reverse().map(({ records, start, end, needed }) => element("li", { class: needed ? "refused" : "" },
                element("span", {}, records ? "Arrived: " : "Lost: ", element("code", {}, `${grouped(start)}..${grouped(end)}`)),
                element("span", {}, needed ? `refused: ${counted(needed, "boundary")}` : "")));
            this.log.replaceChildren(...lines);
        }
    }

    Daleribbon.PiecesView = PiecesView;
}
