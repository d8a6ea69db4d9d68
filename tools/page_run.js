// What the run is, superstep by superstep.

// Flags from how often each is false, then true, then false again, and so on.
function flagsOf(turns) {
    const flags = [];
    turns.forEach((count, n) => { for (let i = 0; i < count; i++) flags.push(n % 2 === 1); });
    return flags;
}

// A value is a number, or the place of its text in the table.
function textOf(value) {
    return Array.isArray(value) ? run.texts[value[0]] : String(value);
}

// The values on the wire after each superstep, the oldest first, and whether one was taken or put in it.
function decodeWire(it) {
    const taken = flagsOf(it.taken), put = flagsOf(it.put);
    const states = [it.first.map(textOf)], moved = [false];
    let next = 0;
    for (let k = 0; k < run.steps; k++) {
        let values = states[k];
        if (taken[k]) values = values.slice(1);
        if (put[k]) values = [...values, textOf(it.values[next++])];
        states.push(values);
        moved.push(taken[k] || put[k]);
    }
    return { name: it.name, type: it.type, depth: it.depth, states, moved };
}

// What the box did in each superstep; in superstep 0, the start, nothing.
function decodeBox(it) {
    const kindOf = ([text, kind, rule]) => ({ text, kind, rule });
    const deeds = [kindOf(run.kinds[0])];
    for (const [number, count] of it.deeds) {
        const deed = kindOf(run.kinds[number]);
        for (let i = 0; i < count; i++) deeds.push(deed);
    }
    return { name: it.name, bound: it.bound, peak: it.peak, rules: it.rules, deeds };
}

const allWires = run.wires.map(decodeWire);
const allBoxes = run.boxes.map(decodeBox);

function contentOf(wire, k) {
    return wire.states[k].join(" | ") || "empty";
}
