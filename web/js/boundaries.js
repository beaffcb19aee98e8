"use strict";

// The list of a set's boundaries, beside its picture.
{
    const { element, grouped } = Daleribbon.tools;
    const { LAST, clamp } = Daleribbon;
    const MOST = 48;

    /**
     * Options: `name`, `format`, `onLink(value or null)`, `onProbe(value)`, and if they can be
     * moved `onMove(from, to)`.
     */
    class BoundaryList {
        constructor(options) {
            Object.assign(this, { format: String, linked: null }, options);
            this.list = element("ol", { class: "boundaries", "aria-label": this.name });
            this.more = element("p", { class: "more" });
            this.node = element("div", { class: "boundary-list" }, this.list, this.more);
            this.listen();
        }

        /** Shows boundaries, the first of which is a start, of `total` in all. */
        show(boundaries, total) {
            const shown = [...boundaries.slice(0, MOST)];
            const left = total - shown.length;
            this.more.textContent = left > 0 ? `and ${grouped(left)} more` : "";
            this.list.classList.toggle("empty", total === 0);
            if (shown.join() !== this.shown) {
                this.shown = shown.join();
                this.replace(shown);
            }
        }

        /** Puts other chips into the list, and keeps the keyboard where it was. */
        replace(shown) {
            const focused = this.list.contains(document.activeElement) ? BigInt(document.activeElement.dataset.value) : null;
            this.list.replaceChildren(...shown.map((value, i) => element("li", {}, this.chip(value, i % 2 === 0))));
            if (focused !== null) {
                this.focus(this.moved ?? focused);
            }
            this.link(this.linked);
        }

        chip(value, starts) {
            const what = starts ? "a range starts" : "a range ends";
            const keys = this.onMove ? "; the arrow keys move it" : "";
            return element("button", {
                type: "button", class: `chip ${starts ? "start" : "end"}`, "data-value": value, "aria-label": `${this.format(value)}: ${what}${keys}`,
            }, this.format(value));
        }

        /** Focuses the chip of a value, or the nearest that is left. */
        focus(value) {
            const distance = (chip) => {
                const far = BigInt(chip.dataset.value) - value;
                return Number(far < 0n ? -far : far);
            };
            const [nearest] = [...this.list.querySelectorAll(".chip")].sort((a, b) => distance(a) - distance(b));
            nearest?.focus();
        }

        link(value) {
            this.linked = value;
            for (const chip of this.list.querySelectorAll(".chip")) {
                chip.classList.toggle("linked", chip.dataset.value === String(value));
            }
        }

        listen() {
            const valueOf = (event) => {
                const chip = event.target.closest(".chip");
                return chip === null ? null : BigInt(chip.dataset.value);
            };
            this.list.addEventListener("pointerover", (event) => this.onLink(valueOf(event)));
            this.list.addEventListener("pointerleave", () => this.onLink(null));
            this.list.addEventListener("focusin", (event) => this.onLink(valueOf(event)));
            this.list.addEventListener("focusout", () => this.onLink(null));
            this.list.addEventListener("click", (event) => {
                const value = valueOf(event);
                if (value !== null) {
                    this.onProbe(value);
                }
            });
            this.list.addEventListener("keydown", (event) => this.key(event, valueOf(event)));
        }

        key(event, value) {
            const distance = { ArrowLeft: -1n, ArrowDown: -1n, ArrowRight: 1n, ArrowUp: 1n }[event.key];
            if (distance === undefined || value === null || !this.onMove) {
                return;
            }
            event.preventDefault();
            const to = clamp(value + distance, 0n, LAST);
            this.moved = to;
            this.onMove(value, to);
            this.moved = undefined;
            this.onLink(to);
        }
    }

    Daleribbon.BoundaryList = BoundaryList;
}
