"use strict";
const run = JSON.parse(document.getElementById("run").textContent);
const PHASES = ["idle", "collecting", "proposed", "decided"];
const FIELDS = [
    ["j", "J: joined or voted"], ["v", "V: last voted"], ["w", "W: its value"], ["l", "L: last led"], ["phase", "phase"],
    ["x", "X: to propose"], ["b", "B: from round"], ["counted", "counted"],
];
const NONE = "none";
const members = [...new Set(run.office.map((record) => record.member))];
const byId = (id) => document.getElementById(id);
const slider = byId("slider");
const body = byId("body");
const rows = [...body.querySelectorAll(".row")];
const trunks = [...body.querySelectorAll(".trunk")];

function element(parent, name, text, className) {
    const made = parent.appendChild(document.createElement(name));
    made.textContent = text;
    made.className = className || "";
    return made;
}

// A field as it is shown.
function shown(record, field) {
    if (field === "phase") return PHASES[record.phase];
    return field === "counted" ? record.counted.join(" ") || "–" : String(record[field]);
}

// The slot whose records and tree are shown: that of this event, or of the last before it whose slot there is.
function slotAt(at) {
    const event = run.events.slice(0, at + 1).findLast((event) => run.slots.includes(event.event.slot));
    return event ? event.event.slot : run.slots[0];
}

// The records of a slot's members after an event.
function recordsAfter(at, slot) {
    const records = run.office.filter((record) => record.slot === slot);
    for (const event of run.events.slice(0, at + 1)) {
        if (event.after && event.after.slot === slot) records[event.after.member] = event.after;
    }
    return records;
}

function showRecords(at, slot) {
    const event = run.events[at];
    const table = byId("records");
    table.replaceChildren();
    const head = element(element(table, "thead", ""), "tr", "");
    element(head, "th", "");
    const cells = element(table, "tbody", "");
    const records = recordsAfter(at, slot);
    records.forEach((record) => element(head, "th", "member " + record.member));
    for (const [field, name] of FIELDS) {
        const line = element(cells, "tr", "");
        element(line, "th", name);
        for (const record of records) {
            const changed = event && event.after === record && shown(event.before, field) !== shown(record, field);
            element(line, "td", shown(record, field), changed ? "changed" : "");
        }
    }
}

// The nodes of a slot's tree after an event, without the root.
function nodesAfter(at, slot) {
    const nodes = new Map();
    const events = run.events.slice(0, at + 1).filter((event) => event.event.slot === slot);
    events.forEach((event) => event.nodes.forEach((node) => nodes.set(node.round, node)));
    return [...nodes.values()].sort((a, b) => a.round - b.round);
}

function showTree(at, slot) {
    const changed = at < 0 ? [] : run.events[at].nodes;
    const nodes = nodesAfter(at, slot);
    const tree = byId("tree");
    tree.textContent = "root\n";
    const below = (parent, indent) => {
        const children = nodes.filter((node) => node.parent === parent);
        children.forEach((node, place) => {
            const last = place + 1 === children.length;
            const words = `round ${node.round}, value ${node.value}, ${node.status}`;
            tree.append(indent + (last ? "└─ " : "├─ "));
            element(tree, "span", words, changed.includes(node) ? "changed" : "");
            tree.append("\n");
            below(node.round, indent + (last ? "   " : "│  "));
        });
    };
    below(0, "");
}

// What an answer means, and what happened.
function wordsOf(event) {
    const answer = event.answer === 0 ? "0: accepted" : `${event.answer}: ${event.cause}`;
    const model = event.answer === event.model_answer ? "" : ` The model answers ${event.model_answer}.`;
    const ghosts = event.ghosts === event.model_ghosts ? "" : ` It makes ${event.ghosts} GHOST, in the model ${event.model_ghosts}.`;
    return `${answer}. ${event.words}.${model}${ghosts}`;
}

// Records and tree after the event that the slider stands on; -1 is before the first. The slot is named where others than slot 0
// are shown.
function show() {
    const at = Number(slider.value);
    const event = run.events[at];
    const slot = slotAt(at);
    const named = run.slots.some((slot) => slot !== 0) ? ` of slot ${slot}` : "";
    document.querySelectorAll(".slot").forEach((place) => { place.textContent = named; });
    byId("place").textContent = event ? `${event.number}: ${event.event.notation}` : "– (none yet)";
    byId("words").textContent = event ? wordsOf(event) : "";
    showRecords(at, slot);
    showTree(at, slot);
    body.querySelectorAll(".now").forEach((row) => row.classList.remove("now"));
    if (!event) return;
    rows[at].classList.add("now");
    rows[at].scrollIntoView({ block: "nearest" });
}

// The round of the start or of the message delivered.
function roundOf(event) {
    if (event.event.kind === "start") return String(event.event.round);
    return event.delivered ? String(event.delivered.round) : NONE;
}

function slotOf(event) {
    return run.slots.includes(event.event.slot) ? String(event.event.slot) : NONE;
}

function memberOf(event) {
    return members.includes(event.event.member) ? String(event.event.member) : NONE;
}

function choice(place, value, name, colour) {
    const label = element(byId(place), "label", "");
    const box = element(label, "input", "");
    box.type = "checkbox";
    box.value = value;
    box.checked = true;
    element(label, "span", name).style.color = colour || "";
}

// A box for each slot, round and member, and one for events that have none; two buttons for all rounds at once. One slot alone
// isn't asked for.
function makeFilters() {
    run.slots.forEach((slot) => choice("slots", slot, slot));
    if (run.events.some((event) => slotOf(event) === NONE)) choice("slots", NONE, "no such slot");
    byId("slots").hidden = byId("slots").querySelectorAll("input").length === 1;
    for (const [name, all] of [["all", true], ["none", false]]) {
        const button = element(byId("rounds"), "button", name);
        button.type = "button";
        button.addEventListener("click", () => {
            byId("rounds").querySelectorAll("input").forEach((box) => { box.checked = all; });
            place();
        });
    }
    run.rounds.forEach(({ round, colour }) => choice("rounds", round, round, colour));
    if (run.events.some((event) => roundOf(event) === NONE)) choice("rounds", NONE, "no such message");
    members.forEach((member) => choice("members", member, member));
    if (run.events.some((event) => memberOf(event) === NONE)) choice("members", NONE, "no such member");
    byId("filters").addEventListener("change", place);
}

// Whether the filters let an event through.
function filter() {
    const ticked = (id) => new Set([...byId(id).querySelectorAll("input:checked")].map((box) => box.value));
    const [slots, rounds, members] = ["slots", "rounds", "members"].map(ticked);
    const answers = byId("answers").value;
    const wanted = (answer) => answers === "all" || (answers === "accepted") === (answer === 0);
    return (event) => slots.has(slotOf(event)) && rounds.has(roundOf(event)) && members.has(memberOf(event))
        && wanted(event.answer);
}

// Closes the rows that the filters let through up, and draws the arrows between them. One whose sender's row is hidden begins
// where that row would be.
function place() {
    const wanted = filter();
    const on = run.events.map(wanted);
    const lines = [];
    let height = 0;
    let count = 0;
    rows.forEach((row, at) => {
        row.style.display = on[at] ? "" : "none";
        lines.push(height + (on[at] ? Number(row.dataset.top) : 0));
        if (!on[at]) return;
        row.setAttribute("transform", `translate(0,${lines[at]})`);
        row.classList.toggle("odd", count++ % 2 === 1);
        height += Number(row.dataset.height);
    });
    placeTrunks(on, lines);
    body.querySelectorAll(".life").forEach((line) => line.setAttribute("y2", height));
    body.setAttribute("height", height);
    body.setAttribute("viewBox", `0 0 ${body.getAttribute("width")} ${height}`);
}

function placeTrunks(on, lines) {
    const [begin, end] = [Number(body.dataset.begin), Number(body.dataset.end)];
    const used = new Set();
    for (const trunk of trunks) {
        const [from, to] = [Number(trunk.dataset.from), Number(trunk.dataset.to)];
        trunk.style.display = on[to] ? "" : "none";
        if (!on[to]) continue;
        used.add(from);
        trunk.setAttribute("y1", lines[from] + (on[from] ? begin : 0));
        trunk.setAttribute("y2", lines[to] - end);
    }
    rows.forEach((row, at) => {
        const leave = row.querySelector(".leave");
        if (leave) leave.style.display = used.has(at) ? "" : "none";
    });
}

// The words of the row under the mouse.
function hover(mouse) {
    const row = mouse.target.closest(".row");
    const tip = byId("tip");
    tip.hidden = !row;
    if (!row) return;
    tip.textContent = wordsOf(run.events[row.dataset.at]);
    tip.style.left = Math.min(mouse.clientX + 14, innerWidth - tip.offsetWidth - 8) + "px";
    tip.style.top = Math.min(mouse.clientY + 14, innerHeight - tip.offsetHeight - 8) + "px";
}

makeFilters();
show();
slider.addEventListener("input", show);
body.addEventListener("mousemove", hover);
body.addEventListener("mouseleave", () => { byId("tip").hidden = true; });
body.addEventListener("click", (mouse) => {
    const row = mouse.target.closest(".row");
    if (!row) return;
    slider.value = row.dataset.at;
    slider.focus();
    show();
});
