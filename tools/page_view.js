// The page: the slider, the net, the tables and what is pointed at.
const at = id => document.getElementById(id);
const FILL_OF_WAITING = "white", PLAYED_EVERY = 250;
let pointed = null, player = null;

function addRow(table, texts) {
    const line = at(table).tBodies[0].insertRow();
    for (const text of texts) line.insertCell().textContent = text;
    return line;
}

function addMeter(cell, peak, bound) {
    cell.textContent = (peak === null ? "" : peak + " of ") + bound;
    if (peak === null || bound === 0) return;
    const meter = document.createElement("span"), part = document.createElement("span");
    meter.className = "meter";
    part.style.width = 100 * peak / bound + "%";
    meter.append(part);
    cell.append(meter);
}

const wireLines = allWires.map(it => addRow("wires", [it.name, it.type, it.depth, ""]));
wireLines.forEach(it => { it.cells[3].className = "value"; });
const boxLines = allBoxes.map(it => {
    const line = addRow("boxes", [it.name, "", "", "", it.bound[2]]);
    addMeter(line.cells[2], it.peak && it.peak[0], it.bound[0]);
    addMeter(line.cells[3], it.peak && it.peak[1], it.bound[1]);
    return line;
});
const ruleLines = allBoxes.map(box => box.rules.map(([name, text, counts]) => {
    const line = addRow("rules", [box.name, name, text, counts]);
    line.cells[2].className = "text";
    line.classList.toggle("never", counts.startsWith("never"));
    return line;
}));

const strips = new Strips(at("scroll"), at("room"), at("drawing"), at("names"));

function cut(text) {
    return text.length > 24 ? text.slice(0, 22) + ".." : text;
}

// The last line of a label in the picture is the one that changes.
function label(id, text, colour, moved) {
    const part = at(id);
    if (!part) return;
    const lines = part.querySelectorAll("text"), shape = part.querySelector("polygon");
    lines[lines.length - 1].textContent = text;
    if (colour) shape.setAttribute("fill", colour);
    lines[lines.length - 1].setAttribute("font-weight", moved ? "bold" : "normal");
}

function showWire(wire, n, k) {
    const text = contentOf(wire, k);
    wireLines[n].cells[3].textContent = text;
    wireLines[n].classList.toggle("moved", wire.moved[k]);
    label("wire" + n, text === "empty" ? "" : cut(text), null, wire.moved[k]);
}

function showBox(box, n, k) {
    const deed = box.deeds[k];
    boxLines[n].cells[1].textContent = deed.text;
    boxLines[n].cells[1].className = deed.kind;
    ruleLines[n].forEach((line, rule) => { line.cells[1].className = deed.rule === rule + 1 ? deed.kind : ""; });
    label("box" + n, deed.text, deed.kind === "waits" ? FILL_OF_WAITING : FILLS[deed.kind], false);
}

function show() {
    const k = Number(at("step").value);
    at("number").textContent = k;
    allWires.forEach((wire, n) => showWire(wire, n, k));
    allBoxes.forEach((box, n) => showBox(box, n, k));
    strips.show(k, pointed);
    const stands = run.standstill !== null && k >= run.standstill, ends = run.ending && k === run.steps;
    at("report").hidden = !stands && !ends;
    at("report").textContent = (stands ? run.report.join("\n") : "") + (ends ? run.ending : "");
}

function goTo(k) {
    at("step").value = k;
    show();
}

const move = by => goTo(Number(at("step").value) + by);

function play(starts) {
    clearInterval(player);
    player = starts ? setInterval(() => (Number(at("step").value) < run.steps ? move(1) : play(false)), PLAYED_EVERY) : null;
    at("play").textContent = starts ? "stop" : "play";
}

function togglePlay() {
    if (player === null && Number(at("step").value) === run.steps) goTo(0);
    play(player === null);
}

// All that shows the box or wire of a row of the strips.
function shownOf(row) {
    const n = row - allBoxes.length;
    const found = n < 0 ? [at("box" + row), boxLines[row], ...ruleLines[row]] : [...document.querySelectorAll(".wire" + n), wireLines[n]];
    return [...found, at("names").children[row]].filter(it => it);
}

function pointAt(row) {
    if (row === pointed) return;
    if (pointed !== null) shownOf(pointed).forEach(it => it.classList.remove("pointed"));
    pointed = row;
    if (row !== null) shownOf(row).forEach(it => it.classList.add("pointed"));
    strips.show(strips.at, pointed);
}

// A wire in the picture is thin, so it gets a broad stroke that isn't seen.
function broaden(part) {
    const line = part && part.matches(".edge") && part.querySelector("path");
    if (!line) return;
    const near = line.cloneNode();
    near.setAttribute("class", "near");
    line.after(near);
}

strips.rows.forEach((_, row) => {
    shownOf(row).forEach(broaden);
    for (const part of shownOf(row)) {
        part.addEventListener("mouseenter", () => pointAt(row));
        part.addEventListener("mouseleave", () => pointAt(null));
    }
});

const KEYS = {
    ArrowLeft: () => move(-1), ArrowRight: () => move(1), PageUp: () => move(-10), PageDown: () => move(10),
    Home: () => goTo(0), End: () => goTo(run.steps), " ": togglePlay,
};

document.addEventListener("keydown", event => {
    const isButton = event.key === " " && event.target.tagName === "BUTTON";
    if (!KEYS[event.key] || isButton || event.ctrlKey || event.altKey || event.metaKey) return;
    event.preventDefault();
    KEYS[event.key]();
});

const drawing = at("drawing");
drawing.addEventListener("mousedown", event => goTo(strips.placeOf(event).step));
drawing.addEventListener("mousemove", event => {
    const { step, row } = strips.placeOf(event);
    pointAt(row);
    drawing.title = row === null ? "" : strips.textAt(row, step);
    if (event.buttons === 1) goTo(step);
});
drawing.addEventListener("mouseleave", () => pointAt(null));
at("scroll").addEventListener("scroll", () => strips.draw());
window.addEventListener("resize", () => strips.draw());

document.querySelector("h1").textContent = run.source;
document.title = run.source;
at("step").max = run.steps;
at("last").textContent = run.steps;
at("step").value = Number(location.hash.slice(1)) || 0;
at("step").addEventListener("input", show);
at("play").addEventListener("click", togglePlay);
at("back").addEventListener("click", () => move(-1));
at("forth").addEventListener("click", () => move(1));
at("narrow").addEventListener("click", () => strips.resize(strips.cell / 1.5));
at("wide").addEventListener("click", () => strips.resize(strips.cell * 1.5));
at("untaken").textContent = [...run.counted, ...run.untaken].join("\n");
at("untaken").hidden = !at("untaken").textContent;
show();
