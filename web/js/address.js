"use strict";

// The part of the address after its "#": the name of a tab, and the state of its view, as in
// `sets&a=0..5,6..10&b=`.
{
    /** The longest fragment that is written: longer links don't pass everywhere. */
    const LONGEST = 4000;

    /** A value without white space, and with the commas left as they are. */
    const written = (value) => encodeURIComponent(value.replace(/\s+/g, "")).replaceAll("%2C", ",");

    function decoded(value) {
        try {
            return decodeURIComponent(value);
        } catch {
            return value;
        }
    }

    /** The fragment of a view and its state, a record of texts; or null if it's too long. */
    function fragmentOf(view, state) {
        const pairs = Object.entries(state);
        if (pairs.some(([, value]) => value.length > 2 * LONGEST)) {
            return null;
        }
        const fragment = [view, ...pairs.map(([key, value]) => `${key}=${written(value)}`)].join("&");
        return fragment.length > LONGEST ? null : fragment;
    }

    /**
     * The view and the state that a fragment has. Without a state it has a name alone, and the
     * state is null.
     */
    function readFragment(fragment) {
        const [view, ...pairs] = fragment.split("&");
        const entries = pairs.map((pair) => {
            const [key, ...value] = pair.split("=");
            return [key, decoded(value.join("=")).replace(/,\s*/g, ", ")];
        });
        return { view, state: entries.length === 0 ? null : Object.fromEntries(entries) };
    }

    Object.assign(Daleribbon, { fragmentOf, readFragment });
}
