// The strips: a row for each box and each wire, a column for each superstep. Only the columns in view are drawn.
const HEAD = 18, ROW = 22, LEAST_CELL = 3, MOST_CELL = 120, SLANT = 3;
const FILLS = { fired: "#a9dfa9", puts: "#dff3df", blocked: "#f4aaa4", waits: "#e4e4e4", unsure: "#d9cdf0" };

class Strips {
    constructor(scroll, room, canvas, names) {
        Object.assign(this, { scroll, room, canvas, names, cell: 0, at: 0, pointed: null });
        this.rows = [...allBoxes.map(box => ({ box })), ...allWires.map(wire => ({ wire }))];
        for (const { box, wire } of this.rows) {
            const name = document.createElement("div");
            name.textContent = name.title = (box || wire).name;
            if (box) name.className = "box";
            names.append(name);
        }
        this.resize(Math.max(scroll.clientWidth / (run.steps + 1), this.usualCell()));
    }

    // As wide as half of the values need it, within bounds.
    usualCell() {
        const lengths = run.wires.flatMap(it => it.values.map(value => textOf(value).length)).sort((a, b) => a - b);
        return Math.min(90, Math.max(28, 7 * (lengths[lengths.length >> 1] || 0) + 2 * SLANT + 4));
    }

    resize(cell) {
        this.cell = Math.min(MOST_CELL, Math.max(LEAST_CELL, cell));
        this.room.style.width = this.cell * (run.steps + 1) + "px";
        this.reveal();
        this.draw();
    }

    // Scrolls so that the superstep is in view.
    reveal() {
        const left = this.at * this.cell, width = this.scroll.clientWidth;
        if (left < this.scroll.scrollLeft || left + this.cell > this.scroll.scrollLeft + width) this.scroll.scrollLeft = left - width / 2;
    }

    show(k, pointed) {
        this.at = k;
        this.pointed = pointed;
        this.reveal();
        this.draw();
    }

    // The superstep and the row at a place of the drawing.
    placeOf(event) {
        const column = Math.floor((event.offsetX + this.scroll.scrollLeft) / this.cell);
        const row = Math.floor((event.offsetY - HEAD) / ROW);
        return { step: Math.min(run.steps, Math.max(0, column)), row: row >= 0 && row < this.rows.length ? row : null };
    }

    // What stands in a row at a superstep, in full.
    textAt(row, k) {
        const { box, wire } = this.rows[row];
        return `superstep ${k}: ` + (box ? box.deeds[k].text : contentOf(wire, k));
    }

    x(k) {
        return k * this.cell - this.scroll.scrollLeft;
    }

    draw() {
        const width = this.scroll.clientWidth, height = HEAD + ROW * this.rows.length, scale = window.devicePixelRatio || 1;
        this.canvas.width = width * scale;
        this.canvas.height = height * scale;
        this.canvas.style.width = width + "px";
        this.canvas.style.height = this.room.style.height = height + "px";
        const pen = this.canvas.getContext("2d");
        pen.scale(scale, scale);
        pen.textBaseline = "middle";
        this.first = Math.max(0, Math.floor(this.scroll.scrollLeft / this.cell));
        this.end = Math.min(run.steps + 1, Math.ceil((this.scroll.scrollLeft + width) / this.cell));
        this.drawPlace(pen, width, height);
        this.drawAxis(pen);
        this.rows.forEach(({ box, wire }, n) => box ? this.drawBox(pen, box, HEAD + n * ROW) : this.drawWire(pen, wire, HEAD + n * ROW));
    }

    drawPlace(pen, width, height) {
        pen.fillStyle = "#dbe6fb";
        pen.fillRect(this.x(this.at), 0, this.cell, height);
        if (this.pointed === null) return;
        pen.fillStyle = "#eef3fd";
        pen.fillRect(0, HEAD + ROW * this.pointed, width, ROW);
    }

    drawAxis(pen) {
        const every = [1, 2, 5, 10, 20, 50, 100, 200, 500].find(it => it * this.cell >= 44) || 1000;
        pen.font = "10px Helvetica, Arial, sans-serif";
        pen.fillStyle = "#555";
        for (let k = this.first - this.first % every; k < this.end; k += every) pen.fillText(k, this.x(k) + 2, HEAD / 2);
    }

    // The columns in view, cut where `starts` holds: pairs of the first one and the one behind the last.
    *pieces(starts) {
        let from = this.first;
        while (from > 0 && this.first - from < 1000 && !starts(from)) from--;
        for (let k = this.first + 1; k <= this.end; k++) {
            if (k < this.end && !starts(k)) continue;
            yield [from, k];
            from = k;
        }
    }

    drawBox(pen, box, top) {
        pen.font = "11px Helvetica, Arial, sans-serif";
        for (let k = Math.max(1, this.first); k < this.end; k++) {
            const deed = box.deeds[k], left = this.x(k);
            pen.fillStyle = FILLS[deed.kind];
            pen.fillRect(left, top + 3, Math.max(1, this.cell - (this.cell > 6)), ROW - 6);
            pen.fillStyle = "#222";
            if (deed.rule && this.cell >= 12) pen.fillText(deed.rule, left + this.cell / 2 - 3 * String(deed.rule).length, top + ROW / 2);
        }
    }

    drawWire(pen, wire, top) {
        pen.font = "11px monospace";
        pen.strokeStyle = pen.fillStyle = "#334";
        for (const [from, to] of this.pieces(k => wire.moved[k])) {
            const values = wire.states[from], left = this.x(from), right = this.x(to);
            pen.beginPath();
            if (values.length === 0) this.traceEmpty(pen, left, right, top);
            else this.traceValue(pen, left, right, top);
            pen.stroke();
            const count = wire.depth > 1 && values.length ? values.length + ":" : "";
            this.write(pen, [count, values.join(" | ")].join(count && " "), count, Math.max(left, 0) + SLANT + 2, right - SLANT, top + ROW / 2);
        }
    }

    traceEmpty(pen, left, right, top) {
        pen.moveTo(left, top + ROW / 2 + 0.5);
        pen.lineTo(right, top + ROW / 2 + 0.5);
    }

    // As a logic analyser draws a bus: two lines that cross where the value changes.
    traceValue(pen, left, right, top) {
        const high = top + 3.5, low = top + ROW - 3.5, middle = top + ROW / 2 + 0.5, slant = Math.min(SLANT, (right - left) / 2);
        pen.moveTo(left, middle);
        pen.lineTo(left + slant, high);
        pen.lineTo(right - slant, high);
        pen.lineTo(right, middle);
        pen.lineTo(right - slant, low);
        pen.lineTo(left + slant, low);
        pen.closePath();
    }

    // As much of the text as finds room; of a queue its length at least.
    write(pen, text, count, left, right, middle) {
        const most = Math.floor((right - left) / pen.measureText("0").width);
        if (most >= text.length) pen.fillText(text, left, middle);
        else if (most >= count.length + 5) pen.fillText(text.slice(0, most - 2) + "..", left, middle);
        else if (most >= count.length) pen.fillText(count, left, middle);
    }
}
