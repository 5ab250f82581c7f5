// Draws the lanes of the window.
function barShape(bar, lane, from, to, top) {
    const kind = bars.what[bar] & 1, what = whatOf(bar), width = Math.max(to - from - 0.5, 1.2), middle = top + LAYER / 2;
    const shape = `<rect data-bar="${bar}" x="${from.toFixed(1)}" y="${top + 1}" width="${width.toFixed(1)}" height="${LAYER - 2}"`;
    const round = lane.flock && width > 8 ? ' rx="6"' : "";
    if (what !== HELD)
        return `${shape}${round} fill="url(#${FILLS[what]})" stroke="var(--${FILLS[what]})" stroke-width="1.2"/>${barWords(bar, from, width, top)}`;
    const edge = width < 5 ? "none" : lane.flock ? "#000" : "#fff";
    const held = `${shape}${round} fill="var(--${kind ? "write" : "read"})" stroke="${edge}"/>`;
    if (!lane.flock || width <= 10) return held;
    return `${held}<path d="M${(from + 4).toFixed(1)} ${middle}H${(from + width - 4).toFixed(1)}" stroke="#fff" stroke-width="2" pointer-events="none"/>`;
}

// The end of a wait in words, if it is in the window and there is room.
function barWords(bar, from, width, top) {
    const words = ["", "granted", "EINTR", "EBADF", "ENOLCK", "waits", "error"][whatOf(bar)], room = words.length * 6.4 + 8;
    if (width < room + 12 || placeOf(lastOf(bar)) > view[1]) return "";
    const at = Math.min(from + width, right()) - room + 3;
    return `<rect x="${at - 2}" y="${top + 2}" width="${room - 3}" height="${LAYER - 4}" fill="#fff" pointer-events="none"/>` +
        `<text x="${at}" y="${top + LAYER - 4}" font-size="10.5" pointer-events="none">${words}</text>`;
}

function severalShape(group, lane, top) {
    if (group.count === 1) return barShape(group.bar, lane, group.from, group.to, top);
    const place = `x="${group.from.toFixed(1)}" y="${top + 1}" width="${Math.max(group.to - group.from, 2).toFixed(1)}"`;
    const waits = group.waits ? `<rect ${place} height="5" fill="#d55e00" pointer-events="none"/>` : "";
    const told = `data-first="${bars.first[group.bar]}" data-last="${group.last}" data-count="${group.count}" data-waits="${group.waits}"`;
    return `<rect ${told} ${place} height="${LAYER - 2}" fill="#999"/>${waits}`;
}

const startX = bar => Math.max(x(placeOf(bars.first[bar])), left());
const endX = bar => Math.min(x(placeOf(lastOf(bar))), right());
const inside = function* (it, passes) {
    for (let bar = it.low; bar < it.high; bar++)
        if (passes(bar)) yield bar;
};

// Marks that stand too near to one of the same sort are left out.
function laneMarks(it) {
    const drawn = [], last = {};
    for (const bar of inside(it, bar => isMark(bar) && x(placeOf(bars.first[bar])) >= left())) {
        const at = startX(bar), mark = MARKS[whatOf(bar)];
        if (at - (last[mark] ?? -9) < 3) continue;
        last[mark] = at;
        drawn.push(`<use data-bar="${bar}" href="#mark-${mark}" x="${at.toFixed(1)}" y="${it.top + bars.layer[bar] * LAYER + LAYER / 2}"/>`);
    }
    return drawn.join("");
}

// Narrow bars of one layer that touch each other are drawn as one.
function laneBars(it) {
    const groups = [], drawn = [], topOf = layer => it.top + layer * LAYER;
    const flush = layer => {
        if (groups[layer]) drawn.push(severalShape(groups[layer], it.lane, topOf(layer)));
        groups[layer] = null;
    };
    for (const bar of inside(it, bar => !isMark(bar))) {
        const layer = bars.layer[bar], from = startX(bar), to = endX(bar);
        if (to < left() || joins(groups[layer], bar, from, to)) continue;
        flush(layer);
        if (to - from < NARROW)
            groups[layer] = { bar, from, to: Math.max(to, from + 1.2), last: lastOf(bar), count: 1, waits: whatOf(bar) === HELD ? 0 : 1 };
        else
            drawn.push(barShape(bar, it.lane, from, to, topOf(layer)));
    }
    groups.forEach((_, layer) => flush(layer));
    return drawn.join("");
}

function joins(group, bar, from, to) {
    if (!group || from - group.to >= 1 || to - from >= NARROW) return false;
    group.to = Math.max(group.to, to);
    group.last = Math.max(group.last, lastOf(bar));
    group.count++;
    group.waits += whatOf(bar) === HELD ? 0 : 1;
    return true;
}

function fileText(file) {
    const [name, node, gone] = data.files[file];
    return `${escaped(name)} <tspan font-weight="normal" fill="#444">node ${node}${gone ? ", unlinked" : ""}</tspan>`;
}

// Owners that a kernel makes up have up to 20 digits.
function laneText({ owner, flock, pid }) {
    const short = owner.length > 11 ? `${owner.slice(0, 5)}…${owner.slice(-5)}` : owner;
    return `owner ${short}${pid === null ? "" : `, pid ${pid}`}${flock ? ", flock" : ""}`;
}

function rowShape(it) {
    if (!it.lane)
        return `<rect x="0" y="${it.top}" width="100%" height="${HEAD}" fill="#eee"/><text x="6" y="${it.top + 15}" font-weight="bold">${fileText(it.file)}</text>`;
    return `<text x="16" y="${it.top + 12}">${laneText(it.lane)}<title>owner ${it.lane.owner}</title></text>${laneBars(it)}${laneMarks(it)}` +
        `<path d="M0 ${it.top + it.size - 2.5}H3000" stroke="#e3e3e3"/>`;
}

// Round numbers of orders, or round times.
function ticks() {
    const step = tickStep((view[1] - view[0]) / Math.max(2, (right() - left()) / 130)), counted = places ? 0 : data.first, found = [];
    for (let at = Math.ceil((view[0] + counted) / step) * step; at <= view[1] + counted; at += step)
        found.push(at - counted);
    return found;
}

function tickStep(least) {
    const power = 10 ** Math.floor(Math.log10(Math.max(least, 1)));
    return [1, 2, 5, 10].map(it => it * power).find(it => it >= least) || 10 * power;
}

function drawAxis(at) {
    const words = place => places ? `${grouped(place / 1000)} ms` : grouped(place + data.first);
    const texts = at.filter(it => x(it) < right() - 50).map(it =>
        `<path d="M${x(it).toFixed(1)} 16V22" stroke="#555"/><text x="${(x(it) + 3).toFixed(1)}" y="15">${words(it)}</text>`);
    byId("axis").innerHTML = `<text x="6" y="15" fill="#444">${places ? "time" : "order"}</text>${texts.join("")}`;
}

function markedShape() {
    const at = x(placeOf(Math.max(marked, 0)));
    if (marked < 0 || at < left() || at > right()) return "";
    return `<path d="M${at.toFixed(1)} 0V${height}" stroke="#000" stroke-width="1.5" stroke-dasharray="3 3" pointer-events="none"/>`;
}

function summary() {
    const [from, to] = orders(), here = shown.filter(it => it.lane), files = shown.length - here.length;
    const last = data.first - 1, span = `rders ${grouped(from + data.first)} to ${grouped(to + last)}`;
    const range = places ? `${milliseconds(view[0])} to ${milliseconds(view[1])}, o${span}` : `O${span}`;
    const which = found ? ` of ${grouped(found.size)} found` : "";
    return `${range} of ${grouped(data.orders + last)}: ${counted(here.length, "lane")}${which} in ${counted(files, "file")}`;
}

function draw() {
    layOut();
    tall.style.height = `${Math.max(height, 40)}px`;
    const size = Math.max(40, Math.min(box.clientHeight, height)), top = Math.min(box.scrollTop, Math.max(0, height - size));
    const rows = shown.filter(it => it.top < top + size + 10 && it.top + (it.size || HEAD) > top).map(rowShape).join("");
    const at = ticks(), grid = at.map(it => `M${x(it).toFixed(1)} 0V${height}`).join("");
    const words = summary(), none = shown.length ? "" : `<text x="16" y="24">nothing here</text>`;
    chart.setAttribute("height", size);
    chart.innerHTML = `<title id="lanes-title">Locks held and requests that wait, a lane for each owner</title>` +
        `<desc id="lanes-desc">${words}. The table below lists them.</desc>` +
        `<g transform="translate(0 ${-top})"><path d="${grid}" stroke="#eee"/>${rows}${none}${markedShape()}</g>`;
    byId("says").textContent = words;
    drawAxis(at);
    const brush = byId("brush").style;
    brush.left = `${100 * view[0] / end}%`;
    brush.width = `${100 * (view[1] - view[0]) / end}%`;
    if (byId("list").open) list();
    clearTimeout(remembering);
    remembering = setTimeout(remember, 400);
}

let remembering = 0, pending = 0;
function later() {
    if (!pending)
        pending = requestAnimationFrame(() => { pending = 0; draw(); });
}
