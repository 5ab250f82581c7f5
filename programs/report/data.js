// The data of the page, and its window. Places count from 0 here, and from `data.first` in all that is shown: an order's place is one less than its number, or
// is its number if the trace begins with a head, which has place 0.
const LABELS = 250, HEAD = 22, LAYER = 14, GAP = 5, NARROW = 4, LEAST = 8, MOST_LISTED = 300, AROUND = 60;
// As in chart.py: what a bar or a mark says, and how it is filled or which mark it is.
const HELD = 0, FIRST_MARK = 7;
const WHATS = ["held", "waited, then granted", "waited, then EINTR", "waited, then EBADF", "waited, then ENOLCK", "waits at the end of the trace",
    "waited, then an error", "refused", "refused", "refused", "refused"];
const FILLS = ["", "granted", "eintr", "ebadf", "enolck", "still", "ebadf"];
const MARKS = { 7: "eagain", 8: "edeadlk", 9: "enolck", 10: "other" };

const data = JSON.parse(document.getElementById("data").textContent);
const byId = id => document.getElementById(id);
const box = byId("lanes"), tall = byId("tall"), chart = byId("chart"), tip = byId("tip");
const escaped = text => String(text).replace(/[&<>"]/g, it => `&#${it.charCodeAt(0)};`);
const grouped = number => number.toLocaleString("en-US");
const counted = (number, word) => `${grouped(number)} ${word}${number === 1 ? "" : "s"}`;

// ---- The data

const summed = (list, start = 0) => { let sum = start; return list.map(it => (sum += it)); };
const lines = summed(data.lines);
const places = data.places ? summed(data.places) : null;
const end = places ? places[data.orders] || 1 : Math.max(data.orders, 1);
const isBefore = order => order === 0 && data.first === 0;
const placeOf = places ? order => places[order] : order => order;
const bars = data.bars;
const lanes = [];

// `reach` of a bar is where the last one ends of those up to it, so both it and `first` rise. `pid` of a lane is that of all its bars.
function readLane(lane) {
    let first = 0, reach = 0;
    lane.pid = bars.pid[lane.from];
    for (let bar = lane.from; bar < lane.to; bar++) {
        bars.first[bar] = first += bars.first[bar];
        bars.reach[bar] = reach = Math.max(reach, first + Math.max(bars.length[bar], 1));
        if (bars.pid[bar] !== lane.pid) lane.pid = null;
    }
}

function readLanes() {
    let from = 0, note = 0;
    bars.noteOf = bars.what.map(it => it >> 1 === HELD ? -1 : note++);
    bars.reach = new Float64Array(bars.what.length);
    for (const [file, owner, flock, layers, count] of data.lanes) {
        lanes.push({ file, owner, flock, layers, from, to: from + count });
        from += count;
    }
    lanes.forEach(readLane);
}
readLanes();

const lastOf = bar => bars.first[bar] + bars.length[bar];
const whatOf = bar => bars.what[bar] >> 1;
const isMark = bar => whatOf(bar) >= FIRST_MARK;
const laneOf = bar => lanes[leastIn(0, lanes.length, at => lanes[at].to > bar)];

// The least of these numbers that passes a test, which all greater ones pass too.
function leastIn(from, to, passes) {
    while (from < to) {
        const middle = (from + to) >> 1;
        if (passes(middle)) to = middle; else from = middle + 1;
    }
    return from;
}

// Which bars of a lane may be seen from one order up to another.
function seen(lane, from, to) {
    return [leastIn(lane.from, lane.to, it => bars.reach[it] > from), leastIn(lane.from, lane.to, it => bars.first[it] >= to)];
}

// ---- The window

let view = [0, end], wanted = "", found = null, marked = -1, shown = [], height = 0;

// The orders of the window, from the first up to another.
function orders() {
    if (!places) return [Math.floor(view[0]), Math.min(data.orders, Math.ceil(view[1]))];
    return [leastIn(0, data.orders, it => places[it + 1] >= view[0]), leastIn(0, data.orders, it => places[it] > view[1])];
}

const milliseconds = place => `${(place / 1000).toLocaleString("en-US", { minimumFractionDigits: 3, maximumFractionDigits: 3 })} ms`;
const left = () => LABELS, right = () => box.clientWidth - 8;
const x = place => left() + (place - view[0]) * (right() - left()) / (view[1] - view[0]);
const placeAtX = pixel => view[0] + (pixel - left()) * (view[1] - view[0]) / (right() - left());

function move(from, to) {
    const size = Math.min(end, Math.max(to - from, Math.min(end, LEAST)));
    const start = Math.min(Math.max(0, from), end - size);
    view = [start, start + size];
    later();
}

const zoom = (factor, around = (view[0] + view[1]) / 2) => move(around - (around - view[0]) * factor, around + (view[1] - around) * factor);
const pan = part => move(view[0] + part * (view[1] - view[0]), view[1] + part * (view[1] - view[0]));

// Which lanes have something in the window, each with its height from the top.
function layOut() {
    const [from, to] = orders();
    let top = 0, file = -1;
    shown = [];
    lanes.forEach((lane, at) => {
        const [low, high] = found && !found.has(at) ? [0, 0] : seen(lane, from, to);
        if (low >= high) return;
        if (lane.file !== file) {
            shown.push({ file: lane.file, top });
            top += HEAD;
            file = lane.file;
        }
        const size = lane.layers * LAYER + GAP;
        shown.push({ lane, low, high, top, size });
        top += size;
    });
    height = top;
}
