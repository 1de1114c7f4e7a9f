// What the tests ask of a page; put into it before its own script. Each answer is a text.
"use strict";
window.probes = (() => {
    const byId = (id) => document.getElementById(id);
    const all = (selector) => [...document.querySelectorAll(selector)];
    const displayed = (one) => getComputedStyle(one).display !== "none" && one.getClientRects().length > 0;
    const starred = (one) => (Number(getComputedStyle(one).fontWeight) >= 600 ? "*" : "") + one.textContent;

    // All that stands beside the picture, bold parts with a star.
    function shown() {
        const records = all("#records tbody tr").map((row) => [...row.cells].slice(1).map(starred).join(" | "));
        const tree = [...byId("tree").childNodes].map((one) => one.nodeType === Node.TEXT_NODE ? one.textContent : starred(one));
        const headings = all("h2").slice(0, 2).map((one) => one.textContent).join(", ");
        return [byId("place").innerText, byId("words").innerText, headings, ...records, tree.join("")].join("\n");
    }

    // The words that the mouse shows.
    function tip() {
        return displayed(byId("tip")) ? byId("tip").innerText : "";
    }

    // The middle of an event's answer in the window, which is scrolled there.
    function answerPlace(at) {
        const answer = document.querySelector(`.row[data-at="${at}"] .answer`);
        answer.scrollIntoView({ block: "center" });
        const box = answer.getBoundingClientRect();
        return `${box.x + box.width / 2} ${box.y + box.height / 2}`;
    }

    // The numbers of the rows shown, those of the rows whose arrow is shown, and whether rows stand without gaps from the
    // picture's upper edge to its lower one.
    function rows() {
        const shownRows = all(".row").filter(displayed);
        const edge = byId("body").getBoundingClientRect();
        const boxes = shownRows.map((row) => row.querySelector(".back").getBoundingClientRect());
        const [tops, bottoms] = [[...boxes.map((box) => box.top), edge.bottom], [edge.top, ...boxes.map((box) => box.bottom)]];
        const closed = tops.every((top, at) => Math.abs(top - bottoms[at]) < 0.01);
        const arrows = all(".trunk").filter((one) => getComputedStyle(one).display !== "none");
        return [shownRows.map((row) => row.dataset.at).join(" "), arrows.map((one) => one.dataset.to).join(" "), closed].join("\n");
    }

    // Clicks a filter's box or button.
    function click(selector) {
        document.querySelector(selector).click();
        return rows();
    }

    // Chooses among the answers.
    function choose(answers) {
        byId("answers").value = answers;
        byId("answers").dispatchEvent(new Event("change", { bubbles: true }));
        return rows();
    }

    // The words of the picture with their boxes, of whose height a pixel is above and below the letters.
    function words() {
        return all("#body text").filter(displayed).map((one) => {
            const { left, right, top, bottom } = one.getBoundingClientRect();
            return { name: `${one.closest(".row").dataset.at} ${one.textContent}`, left, right, top: top + 1, bottom: bottom - 1 };
        });
    }

    // Points along a line, two pixels apart: no box of a word is so small that a line passes between them.
    function* points(line) {
        const [screen, length] = [line.getScreenCTM(), line.getTotalLength()];
        for (let along = 0; along <= length; along += 2) yield line.getPointAtLength(along).matrixTransform(screen);
    }

    // Words that a line or other words lie on.
    function overlaps() {
        const found = new Set();
        const there = words();
        const near = new Map();
        for (const word of there) {
            for (let y = Math.floor(word.top); y <= word.bottom; y++) near.set(y, [...(near.get(y) || []), word]);
        }
        for (const line of all("#body :is(path, line, circle, .badge, .frame, .dot)")) {
            if (!line.closest(".row") || displayed(line.closest(".row"))) {
                for (const { x, y } of getComputedStyle(line).display === "none" ? [] : points(line)) {
                    const hit = (near.get(Math.floor(y)) || []).find((word) => word.left < x && x < word.right && word.top < y && y < word.bottom);
                    if (hit) found.add(`${hit.name} under ${line.getAttribute("class")}`);
                }
            }
        }
        there.forEach((word, at) => there.slice(at + 1).forEach((other) => {
            const apart = word.right <= other.left || other.right <= word.left || word.bottom <= other.top || other.bottom <= word.top;
            if (!apart) found.add(`${word.name} under ${other.name}`);
        }));
        return [...found].join("\n");
    }

    // How many lifelines and names of members lie within the window from left to right, and whether all of the picture does.
    function within() {
        const inside = (one) => one.getBoundingClientRect().left >= 0 && one.getBoundingClientRect().right <= innerWidth;
        const names = all(".timeline text").filter((one) => /^member \d$/.test(one.textContent));
        return [all(".life").filter(inside).length, names.filter(inside).length, all(".timeline").every(inside)].join(" ");
    }

    return { shown, tip, answerPlace, rows, click, choose, overlaps, within };
})();

// The page is drawn at the second frame after all is loaded.
addEventListener("load", () => requestAnimationFrame(() => requestAnimationFrame(() => { window.drawn = true; })));
