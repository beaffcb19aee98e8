"use strict";

// What a view was before: each change can be undone, and done again.
{
    const { element } = Daleribbon.tools;
    const MOST = 100;

    const same = (a, b) => Object.keys(a).every((key) => a[key] === b[key]);

    /**
     * The states of a view, one of which is its state now. The view's `state` is a record of texts,
     * and can be set; it is `faulty` if a text is shown that isn't one of them.
     */
    class Past {
        constructor(view) {
            const first = view.state;
            Object.assign(this, { view, first, states: [first], now: 0, kind: null, onChange: () => {} });
            this.undoButton = this.button("↶ Undo", () => this.undo());
            this.redoButton = this.button("↷ Redo", () => this.redo());
            this.show();
        }

        /**
         * Keeps the view's state, if it's another than before. Changes of one kind, with none
         * between, are one step.
         */
        note(kind = null) {
            const { states, view } = this;
            const { state } = view;
            if (!same(state, states[this.now])) {
                const before = kind !== null && kind === this.kind ? this.now - 1 : this.now;
                const isStep = !same(state, states[before]);
                states.splice(before + 1, states.length, ...(isStep ? [state] : []));
                if (states.length > MOST) {
                    states.shift();
                }
                this.now = states.length - 1;
                this.kind = isStep ? kind : null;
            }
            this.show();
            this.onChange();
        }

        /** Ends a step of several changes: what comes next is another. */
        rest() {
            this.kind = null;
        }

        undo() {
            this.go(this.view.faulty ? this.now : this.now - 1);
        }

        redo() {
            this.go(this.now + 1);
        }

        go(to) {
            if (to < 0 || to >= this.states.length) {
                return;
            }
            this.now = to;
            this.rest();
            this.view.state = this.states[to];
            this.show();
            this.onChange();
        }

        button(text, act) {
            const button = element("button", { type: "button" }, text);
            button.addEventListener("click", act);
            return button;
        }

        buttons() {
            return element("div", { class: "changes", role: "group", "aria-label": "Changes" }, this.undoButton, this.redoButton);
        }

        /** Marks a button that does nothing now. A disabled one would lose the focus. */
        show() {
            this.undoButton.setAttribute("aria-disabled", this.now === 0 && !this.view.faulty);
            this.redoButton.setAttribute("aria-disabled", this.now === this.states.length - 1);
        }
    }

    Daleribbon.Past = Past;
}
