"use strict";

// The part of the number line that is shown.
{
    /** All values lie below this one, which is the largest that a boundary can be. */
    const LAST = 2n ** 64n - 1n;
    /** Room at both sides for dots and arrows, in pixels. */
    const MARGIN = 22;
    /** How far ticks stand apart at least, and how wide a digit of theirs is, in pixels. */
    const APART = 58;
    const CHARACTER = 7;

    const clamp = (value, least, most) => (value < least ? least : value > most ? most : value);

    /** The window from `start` up to `end`, on which several lines are drawn. */
    class Scale {
        constructor(start, end, { step = 1n, last = LAST, binary = false } = {}) {
            Object.assign(this, { start, end, step, last, binary });
        }

        get span() {
            return this.end - this.start;
        }

        /** Where a value stands on a line of some width; if far outside, just outside. */
        x(value, width) {
            const share = Number(value - this.start) / Number(this.span);
            return MARGIN + clamp(share, -0.5, 1.5) * (width - 2 * MARGIN);
        }

        /** The value at a place, to the next whole step. */
        value(x, width) {
            const share = clamp((x - MARGIN) / (width - 2 * MARGIN), 0, 1);
            const steps = BigInt(Math.round(share * Number(this.span / this.step)));
            return this.start + steps * this.step;
        }

        /** How many pixels a step takes. */
        stepWidth(width) {
            return (Number(this.step) / Number(this.span)) * (width - 2 * MARGIN);
        }

        /** Shows a window of some length, within what there is. */
        show(start, span) {
            const length = clamp(span, 8n * this.step, this.last);
            this.start = clamp(start, 0n, this.last - length);
            this.end = this.start + length;
        }

        zoom(factor) {
            const span = BigInt(Math.round(Number(this.span) * factor));
            const middle = this.start + this.span / 2n;
            this.show(middle - span / 2n, span);
        }

        pan(share) {
            this.show(this.start + BigInt(Math.round(Number(this.span) * share)), this.span);
        }

        /** Moves the window so far that a value is in it. */
        follow(value) {
            if (value < this.start) {
                this.show(value, this.span);
            } else if (value > this.end) {
                this.show(value - this.span, this.span);
            }
        }

        /** The values of the ticks, so far apart that their numbers have room. */
        ticks(width, format) {
            const apart = Math.max(APART, (format(this.end).length + 2) * CHARACTER);
            const step = this.tickStep(Math.max(2, Math.floor((width - 2 * MARGIN) / apart)));
            const ticks = [];
            for (let tick = ((this.start + step - 1n) / step) * step; tick <= this.end; tick += step) {
                ticks.push(tick);
            }
            return ticks;
        }

        /** The least round number that gives at most `most` ticks. */
        tickStep(most) {
            const factors = this.binary ? [1n, 2n, 4n] : [1n, 2n, 5n];
            const base = this.binary ? 8n : 10n;
            let unit = this.step;
            while (true) {
                for (const factor of factors) {
                    if (this.span / (unit * factor) < BigInt(most)) {
                        return unit * factor;
                    }
                }
                unit *= base;
            }
        }
    }

    Object.assign(Daleribbon, { Scale, LAST, MARGIN, clamp });
}
