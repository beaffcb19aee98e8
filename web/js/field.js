"use strict";

// A field for the text of a set. What is wrong with a text is said below the character where it was
// typed.
{
    const { element } = Daleribbon.tools;
    const canvas = document.createElement("canvas").getContext("2d");

    /** How wide a text is in the letters of a field, if those of ASCII have one width. */
    function widthOf(text, node) {
        canvas.font = getComputedStyle(node).font;
        const isPlain = /^[ -~]*$/.test(text);
        return isPlain ? text.length * canvas.measureText("0").width : canvas.measureText(text).width;
    }

    /** What stands at a place of a text. */
    const found = (text, at) => (at < text.length ? `, and there is “${String.fromCodePoint(text.codePointAt(at))}”` : ", and the text ends");

    function sentence({ at, expected, said }, text) {
        return said ?? `Character ${[...text.slice(0, at)].length + 1}: ${expected} was expected${found(text, at)}.`;
    }

    /** Calls `onText(text, event)` for what is typed. */
    class TextField {
        constructor({ id, name, onText }) {
            this.input = element("input", {
                type: "text", id, "aria-label": name, "aria-describedby": `${id}-fault`, spellcheck: "false", autocomplete: "off", autocapitalize: "off", inputmode: "text",
            });
            this.mark = element("span", { class: "fault-mark", "aria-hidden": "true", hidden: true }, "▲");
            this.message = element("p", { class: "fault", id: `${id}-fault`, "aria-live": "polite" });
            this.node = element("div", { class: "field" }, this.input, this.mark, this.message);
            this.input.addEventListener("input", (event) => onText(this.input.value, event));
            this.input.addEventListener("scroll", () => this.place());
        }

        set text(text) {
            this.input.value = text;
            this.fault(null);
        }

        get text() {
            return this.input.value;
        }

        /** Shows what is wrong with the text, or nothing. */
        fault(fault) {
            this.at = fault?.at ?? null;
            this.input.toggleAttribute("aria-invalid", fault !== null);
            this.node.classList.toggle("faulty", fault !== null);
            this.message.textContent = fault === null ? "" : sentence(fault, this.input.value);
            this.mark.hidden = this.at === null;
            this.place();
        }

        /** Puts the mark below its character, and hides it if that is scrolled away. */
        place() {
            if (this.at === null) {
                return;
            }
            const { input } = this;
            const left = parseFloat(getComputedStyle(input).paddingLeft) + widthOf(input.value.slice(0, this.at), input) - input.scrollLeft;
            this.mark.style.left = `${left}px`;
            this.mark.style.visibility = left >= 0 && left < input.clientWidth ? "visible" : "hidden";
        }
    }

    Daleribbon.TextField = TextField;
}
