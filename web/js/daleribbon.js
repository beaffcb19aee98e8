"use strict";

/** The one global of the page. Each script adds its part. */
const Daleribbon = {};

{
    const SVG = "http://www.w3.org/2000/svg";

    function withAttributes(node, attributes) {
        for (const [name, value] of Object.entries(attributes)) {
            if (value === true) {
                node.setAttribute(name, "");
            } else if (value !== false && value !== undefined && value !== null) {
                node.setAttribute(name, value);
            }
        }
        return node;
    }

    /** An element of the page, with its attributes and what stands in it. */
    function element(name, attributes = {}, ...children) {
        const node = withAttributes(document.createElement(name), attributes);
        node.append(...children);
        return node;
    }

    /** An element of a drawing. */
    function shape(name, attributes = {}, ...children) {
        const node = withAttributes(document.createElementNS(SVG, name), attributes);
        node.append(...children);
        return node;
    }

    /** A count as people read it: 1,234. */
    const grouped = (count) => BigInt(count).toLocaleString("en");

    /** A count with its noun: 1 range, 2 ranges, 2 boundaries. */
    function counted(count, noun) {
        const plural = noun.endsWith("y") ? `${noun.slice(0, -1)}ies` : `${noun}s`;
        return `${grouped(count)} ${BigInt(count) === 1n ? noun : plural}`;
    }

    Daleribbon.tools = { element, shape, grouped, counted };
}
