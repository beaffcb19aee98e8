"use strict";

// The choice of an operation: five that have a name, and any of the sixteen by its four answers.
{
    const { element } = Daleribbon.tools;

    /**
     * The answers for values in the left set alone, in the right alone, in both, and in neither:
     * the bits of the library for C.
     */
    const LEFT = 1;
    const RIGHT = 2;
    const BOTH = 4;
    const NEITHER = 8;
    const WORDS = { left: LEFT, right: RIGHT, both: BOTH, neither: NEITHER };

    const NAMED = [
        { answers: LEFT | RIGHT | BOTH, sign: "A ∪ B", name: "union" },
        { answers: BOTH, sign: "A ∩ B", name: "intersection" },
        { answers: LEFT, sign: "A − B", name: "difference" },
        { answers: LEFT | RIGHT, sign: "A △ B", name: "symmetric difference" },
        { answers: NEITHER | RIGHT, sign: "not A", name: "complement" },
    ];

    /** What each of the sixteen takes, by its answers. */
    const MEANINGS = [
        "nothing", "what is in A alone", "what is in B alone", "what is in one of them alone",
        "what is in both", "what is in A", "what is in B", "what is in A, in B, or in both",
        "what is in neither", "what isn’t in B", "what isn’t in A", "what isn’t in both",
        "what is in both or in neither", "what is in A, or not in B", "what is in B, or not in A", "everything",
    ];

    const CELLS = [
        [{ answer: BOTH, label: "in A and in B" }, { answer: LEFT, label: "in A, not in B" }],
        [{ answer: RIGHT, label: "not in A, in B" }, { answer: NEITHER, label: "neither in A nor in B" }],
    ];

    /**
     * Calls `onChange(answers)` if the operation changes. `id` tells one chooser's parts from
     * another's.
     */
    class OperationChooser {
        constructor({ id, onChange, answers = NAMED[0].answers }) {
            Object.assign(this, { id, onChange, answers, usual: answers });
            this.radios = NAMED.map((it) => this.radio(it));
            this.boxes = CELLS.flat().map((it) => this.box(it));
            this.meaning = element("p", { class: "meaning", id: `${id}-meaning`, "aria-live": "polite" });
            this.node = element("div", { class: "operation" }, this.named(), this.table(), this.meaning);
            this.show();
        }

        radio({ answers, name }) {
            const radio = element("input", { type: "radio", name: `${this.id}-operation`, id: `${this.id}-${name.replaceAll(" ", "-")}`, value: answers });
            radio.addEventListener("change", () => this.choose(answers));
            return radio;
        }

        box({ answer, label }) {
            const box = element("input", { type: "checkbox", id: `${this.id}-takes-${answer}`, value: answer, "aria-label": `takes what is ${label}` });
            box.addEventListener("change", () => this.choose(this.answers ^ answer));
            return box;
        }

        named() {
            const labels = NAMED.map(({ sign, name }, i) =>
                element("label", {}, this.radios[i], element("span", { class: "sign" }, sign), element("span", { class: "name" }, name)));
            return element("fieldset", { class: "named" }, element("legend", {}, "Operation"), ...labels);
        }

        table() {
            const head = (text, scope) => element("th", { scope }, text);
            const cell = (i) => element("td", {}, element("label", { class: "box" }, this.boxes[i], element("span")));
            return element("table", { class: "answers" },
                element("caption", { class: "hidden" }, "Which values the result takes"),
                element("tr", {}, element("td"), head("in B", "col"), head("not in B", "col")),
                element("tr", {}, head("in A", "row"), cell(0), cell(1)),
                element("tr", {}, head("not in A", "row"), cell(2), cell(3)));
        }

        choose(answers) {
            this.answers = answers;
            this.show();
            this.onChange(answers);
        }

        show() {
            this.radios.forEach((radio) => { radio.checked = Number(radio.value) === this.answers; });
            this.boxes.forEach((box) => { box.checked = this.takes(Number(box.value)); });
            this.meaning.textContent = `The result takes ${MEANINGS[this.answers]}.`;
        }

        /**
         * The answers as words, as they stand in an address. Other words are left out; where no
         * word is known, the operation is the usual one.
         */
        get state() {
            return Object.keys(WORDS).filter((word) => this.takes(WORDS[word])).join(", ");
        }

        set state(words) {
            const given = words.split(/,\s*/).filter((word) => word !== "");
            const known = given.filter((word) => Object.hasOwn(WORDS, word));
            this.answers = known.reduce((answers, word) => answers | WORDS[word], 0);
            if (known.length === 0 && given.length > 0) {
                this.answers = this.usual;
            }
            this.show();
        }

        takes(answer) {
            return (this.answers & answer) !== 0;
        }

        /** Whether some value's membership in A alone changes the result. */
        get dependsOnA() {
            return this.takes(NEITHER) !== this.takes(LEFT) || this.takes(RIGHT) !== this.takes(BOTH);
        }

        /** Whether some value's membership in B alone changes the result. */
        get dependsOnB() {
            return this.takes(NEITHER) !== this.takes(RIGHT) || this.takes(LEFT) !== this.takes(BOTH);
        }

        /** The operation as a sign, if it has one. */
        get sign() {
            return NAMED.find((it) => it.answers === this.answers)?.sign ?? "A ∘ B";
        }
    }

    Object.assign(Daleribbon, { OperationChooser, INTERSECTION: BOTH });
}
