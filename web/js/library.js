"use strict";

// The library, as the page calls it. Every answer about a set comes from here; numbers are BigInt,
// since they are u64.
{
    const EXPECTED = { 1: "a number", 2: "a dot", 3: "a comma or the end" };
    const NO_MEMORY = 6;
    const TOO_LARGE = "A number is larger than 18446744073709551615.";
    const encoder = new TextEncoder();
    const decoder = new TextDecoder();

    /**
     * The first minus up to some place, as what is wrong with a text; or null. It stands before a
     * number: none of u64.
     */
    function minusBefore(text, end) {
        const at = text.slice(0, end).indexOf("-");
        return at === -1 ? null : { at, expected: "a number from 0 on" };
    }

    /**
     * What is said of a number that stands alone before some place of a text; or null if none does.
     */
    function numberAlone(text, at) {
        const word = text.slice(0, at).split(",").at(-1);
        if (!/^\s*\d+\s*$/.test(word) || !/^\s*(,|$)/.test(text.slice(at))) {
            return null;
        }
        const number = BigInt(word.trim());
        if (number > Daleribbon.LAST) {
            return { at: null, said: TOO_LARGE };
        }
        return { at, said: `For one number write ${number}..${number < Daleribbon.LAST ? number + 1n : ""} instead.` };
    }

    const bytesOf = (base64) => Uint8Array.from(atob(base64), (character) => character.charCodeAt(0));

    /** What the library answers, out of its memory. Both copy: the memory moves when it grows. */
    class Memory {
        constructor(calls) {
            this.calls = calls;
        }

        text(length) {
            return decoder.decode(new Uint8Array(this.calls.memory.buffer, this.calls.text(), length));
        }

        numbers(length) {
            return new BigUint64Array(this.calls.memory.buffer, this.calls.numbers(), length).slice();
        }

        /** Writes a text for the library to read, and returns its bytes. */
        write(text) {
            const bytes = encoder.encode(text);
            const start = this.calls.input(bytes.length);
            new Uint8Array(this.calls.memory.buffer, start, bytes.length).set(bytes);
            return bytes;
        }
    }

    /** A set in one of the library's places. */
    class RangeSet {
        constructor(calls, memory, place) {
            this.calls = calls;
            this.memory = memory;
            this.place = place;
        }

        /**
         * Reads a text. Returns null, or what is wrong: what was `expected` instead of the
         * character `at`, or what is `said` instead of that. If a number is too large, or memory
         * ran out, `at` is null. The set then stays as it was.
         */
        parse(text) {
            const bytes = this.memory.write(text);
            const status = this.calls.parse(this.place);
            if (status === 0) {
                return null;
            }
            if (status === NO_MEMORY) {
                return { at: null, said: "There is no memory for this set." };
            }
            if (!(status in EXPECTED)) {
                return minusBefore(text) ?? { at: null, said: TOO_LARGE };
            }
            const at = decoder.decode(bytes.subarray(0, this.calls.fault())).length;
            return minusBefore(text, at) ?? numberAlone(text, at) ?? { at, expected: EXPECTED[status] };
        }

        copyFrom(other) {
            this.calls.copy(other.place, this.place);
        }

        /** Becomes the result of an operation, given by its four answers, on two sets. */
        combine(left, right, answers) {
            this.calls.combine(left.place, right.place, answers, this.place);
        }

        /** Puts a range in. An end of null is none. */
        insert(start, end) {
            if (end === null) {
                this.calls.insert_from(this.place, start);
            } else {
                this.calls.insert(this.place, start, end);
            }
        }

        /** Takes a range out. An end of null is none. */
        remove(start, end) {
            if (end === null) {
                this.calls.remove_from(this.place, start);
            } else {
                this.calls.remove(this.place, start, end);
            }
        }

        has(value) {
            return this.calls.contains(this.place, value) === 1;
        }

        /** How many boundaries are at or below a value. */
        boundariesUpTo(value) {
            return this.calls.boundaries_below(this.place, value + 1n);
        }

        rangesLength() {
            return this.calls.ranges_len(this.place);
        }

        /** How many values are members, or null if the set has no end. */
        covered() {
            const length = this.calls.covered(this.place);
            return length === 0 ? null : BigInt(this.memory.text(length));
        }

        toString() {
            return this.memory.text(this.calls.display(this.place));
        }

        boundariesLength() {
            return this.calls.boundaries_len(this.place);
        }

        /** The lowest and the highest boundary, or null if there is none. */
        ends() {
            const [lowest, highest] = this.memory.numbers(this.calls.ends(this.place));
            return lowest === undefined ? null : [lowest, highest];
        }

        boundaries() {
            return this.memory.numbers(this.calls.boundaries(this.place));
        }

        /** The boundaries of the ranges that reach into a window. The first is a start. */
        part(start, end) {
            return this.memory.numbers(this.calls.part(this.place, start, end));
        }

        /**
         * The range that has a value as [start, end], with an end of null if there is none; or
         * null.
         */
        rangeAt(value) {
            const [start, end = null] = this.memory.numbers(this.calls.range_at(this.place, value));
            return start === undefined ? null : [start, end];
        }

        /** The start and the end of each gap within a window, in one list. */
        gaps(start, end) {
            return this.memory.numbers(this.calls.gaps(this.place, start, end));
        }

        /**
         * For each column of a window whether none (0), some (1) or all (2) of its values are
         * members.
         */
        shades(start, end, columns) {
            return this.memory.numbers(this.calls.shades(this.place, start, end, BigInt(columns)));
        }
    }

    /** Which offsets of a file are there, under a limit. */
    class Tracker {
        constructor(calls, memory) {
            this.calls = calls;
            this.memory = memory;
        }

        begin(limit) {
            this.calls.track(limit);
        }

        /** Records a piece. Returns null, or how many boundaries that would take: too many. */
        record(start, end) {
            return this.calls.record(start, end) === 0 ? null : this.calls.needed();
        }

        /** Records that a piece isn't there, and returns what `record` does. */
        forget(start, end) {
            return this.calls.forget(start, end) === 0 ? null : this.calls.needed();
        }

        has(start, end) {
            return this.calls.has(start, end) === 1;
        }

        received() {
            return BigInt(this.memory.text(this.calls.received()));
        }

        copyReceivedTo(set) {
            this.calls.received_set(set.place);
        }

        copyMissingTo(set, length) {
            this.calls.missing_set(length, set.place);
        }
    }

    /** The compiled library: it makes sets, each in a place of its own, and has one tracker. */
    class Library {
        constructor(calls) {
            this.calls = calls;
            this.memory = new Memory(calls);
            this.places = 0;
            this.tracker = new Tracker(calls, this.memory);
        }

        static async load() {
            const { instance } = await WebAssembly.instantiate(bytesOf(Daleribbon.module));
            return new Library(instance.exports);
        }

        newSet(text = "") {
            const set = new RangeSet(this.calls, this.memory, this.places);
            this.places += 1;
            set.parse(text);
            return set;
        }
    }

    Daleribbon.Library = Library;
}
