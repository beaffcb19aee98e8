"use strict";

// The page itself: its views behind tabs, the address, undo by keys, light and dark, and how long a
// key takes.
{
    const { fragmentOf, readFragment } = Daleribbon;
    /** After how many milliseconds the address follows: browsers refuse many changes in a row. */
    const PAUSE = 200;
    const NEXT_THEME = { "": "light", light: "dark", dark: "" };
    const byId = (id) => document.getElementById(id);

    /**
     * Measures from a key, or a click, until the picture stands on the screen, and shows it in the
     * corner.
     */
    Daleribbon.time = (event) => {
        const answered = performance.now() - event.timeStamp;
        requestAnimationFrame(() => {
            const { port1, port2 } = new MessageChannel();
            port1.onmessage = () => showTime(answered, performance.now() - event.timeStamp);
            port2.postMessage(null);
        });
    };

    function showTime(answered, painted) {
        const corner = byId("time");
        corner.textContent = `${painted.toFixed(1)} ms from key to picture`;
        Object.assign(corner.dataset, { answered, painted, count: Number(corner.dataset.count ?? 0) + 1 });
    }

    /** The tabs, of which one is chosen. Calls `onChoose(name)` for another. */
    class Tabs {
        constructor(onChoose) {
            this.tabs = [...document.querySelectorAll('[role="tab"]')];
            this.tabs.forEach((tab, i) => {
                tab.addEventListener("click", () => onChoose(tab.dataset.view));
                tab.addEventListener("keydown", (event) => {
                    const step = { ArrowLeft: -1, ArrowRight: 1 }[event.key];
                    if (step !== undefined) {
                        const next = this.tabs[(i + step + this.tabs.length) % this.tabs.length];
                        next.click();
                        next.focus();
                    }
                });
            });
        }

        /** Shows the view of a name, or the first if there's none of that name. */
        show(name) {
            const shown = this.tabs.find((tab) => tab.dataset.view === name) ?? this.tabs[0];
            this.shown = shown.dataset.view;
            for (const tab of this.tabs) {
                tab.setAttribute("aria-selected", tab === shown);
                tab.tabIndex = tab === shown ? 0 : -1;
                byId(`view-${tab.dataset.view}`).hidden = tab !== shown;
            }
        }
    }

    /** Keeps the address and what is shown together, each view's state among it. */
    class Address {
        constructor(views) {
            this.views = views;
            this.tabs = new Tabs((name) => this.choose(name));
            for (const view of Object.values(views)) {
                view.past.onChange = () => this.later();
            }
            addEventListener("hashchange", () => this.read());
            addEventListener("keydown", (event) => this.key(event));
            this.read();
        }

        get view() {
            return this.views[this.tabs.shown];
        }

        /**
         * The fragment of a view: its name alone if the state is the one with which it began, or is
         * too long.
         */
        fragment(name) {
            const { state, past } = this.views[name];
            const fragment = fragmentOf(name, state);
            return fragment === fragmentOf(name, past.first) ? name : fragment ?? name;
        }

        /** Goes to the view, and if it has one to the state, that the address names. */
        read() {
            const { view: name, state } = readFragment(location.hash.slice(1));
            this.tabs.show(name);
            if (state !== null && this.tabs.shown === name && location.hash !== `#${this.fragment(name)}`) {
                this.view.state = { ...this.view.past.first, ...state };
                this.view.past.note();
            }
            this.write();
        }

        choose(name) {
            this.write();
            location.hash = this.fragment(name);
        }

        later() {
            clearTimeout(this.timer);
            this.timer = setTimeout(() => this.write(), PAUSE);
        }

        write() {
            clearTimeout(this.timer);
            const fragment = this.fragment(this.tabs.shown);
            if (location.hash !== `#${fragment}` && (location.hash !== "" || fragment.includes("&"))) {
                history.replaceState(null, "", `#${fragment}`);
            }
            const isWhole = fragmentOf(this.tabs.shown, this.view.state) !== null;
            byId("linked").textContent = isWhole ? "The address is a link to this state." : "This state is too long for a link.";
        }

        /** Undoes by Ctrl+Z, but in a field, which does so itself. */
        key(event) {
            const act = { z: event.shiftKey ? "redo" : "undo", y: "redo" }[event.key.toLowerCase()];
            if (act !== undefined && (event.ctrlKey || event.metaKey) && !event.altKey && !event.target.matches("[type=text]")) {
                event.preventDefault();
                this.view.past[act]();
            }
        }
    }

    function listenToTheme() {
        const button = byId("theme");
        button.addEventListener("click", () => {
            const theme = NEXT_THEME[document.documentElement.dataset.theme ?? ""];
            document.documentElement.dataset.theme = theme;
            button.textContent = `◐ ${theme || "auto"}`;
        });
    }

    function fail(text) {
        byId("failed").hidden = false;
        byId("failed").textContent = text;
    }

    async function start() {
        listenToTheme();
        const library = await Daleribbon.Library.load();
        const views = {
            sets: new Daleribbon.SetsView(library), pieces: new Daleribbon.PiecesView(library), characters: new Daleribbon.CharactersView(library),
        };
        for (const [name, view] of Object.entries(views)) {
            const section = byId(`view-${name}`);
            section.insertBefore(view.node, section.querySelector("details"));
        }
        views.sets.update();
        new Address(views);
        document.documentElement.dataset.ready = "true";
    }

    // The library ends if it has no memory, and then answers nothing more.
    addEventListener("error", ({ message }) => fail(`The page has stopped, perhaps out of memory: ${message}. Reload it.`));
    start().catch((error) => fail(`The page could not start: ${error.message}`));
}
