// What is said of bars: at the pointer, and in a table.
const kindText = bar => bars.what[bar] & 1 ? "write" : "read";
const lineText = order => isBefore(order) ? "before the trace" : order < data.orders ? `line ${grouped(lines[order])}` : "the end of the trace";

function spanText(bar) {
    if (isMark(bar)) return `on ${lineText(bars.first[bar])}`;
    return `from ${lineText(bars.first[bar])} to ${lineText(lastOf(bar))}`;
}

function tookText(bar) {
    if (isMark(bar)) return "";
    const took = whatOf(bar) === HELD ? 0 : bars.took[bars.noteOf[bar]], least = isBefore(bars.first[bar]) && !took ? "at least " : "";
    return least + (places ? milliseconds(took || placeOf(lastOf(bar)) - placeOf(bars.first[bar])) : counted(bars.length[bar], "order"));
}

function noteText(bar) {
    if (whatOf(bar) === HELD) return "";
    const note = data.notes[bars.note[bars.noteOf[bar]]];
    return isMark(bar) ? note : `for ${note}`;
}

function barTip(bar) {
    const lane = laneOf(bar), [name, node] = data.files[lane.file];
    const title = `${kindText(bar)} lock${lane.flock ? ", flock" : ""}: ${WHATS[whatOf(bar)]}`;
    const rows = [`${escaped(name)} (node ${node}), ${data.ranges[bars.range[bar]]}`, `owner ${lane.owner}, pid ${bars.pid[bar]}`,
        [spanText(bar), tookText(bar)].filter(it => it).join(", "), escaped(noteText(bar))];
    return `<b>${escaped(title)}</b>${rows.filter(it => it).join("<br>")}`;
}

function severalTip(it) {
    return `<b>${grouped(+it.count)} locks and waits</b>${grouped(+it.waits)} of them waited<br>from ${lineText(+it.first)} to ${lineText(+it.last)}; click to zoom in`;
}

function point(event) {
    const it = event.target.dataset || {};
    const words = it.bar ? barTip(+it.bar) : it.count ? severalTip(it) : "";
    tip.style.display = words ? "block" : "none";
    tip.innerHTML = words;
    if (words) {
        tip.style.left = `${Math.min(event.clientX + 14, innerWidth - tip.offsetWidth - 6)}px`;
        tip.style.top = `${event.clientY + 18 + tip.offsetHeight > innerHeight ? event.clientY - tip.offsetHeight - 12 : event.clientY + 18}px`;
    }
}

// The window as a table, for who doesn't see the chart.
function list() {
    const rows = [];
    for (const it of shown) {
        for (let bar = it.lane ? it.low : 0; it.lane && bar < it.high && rows.length < MOST_LISTED; bar++) {
            const cells = [data.files[it.lane.file][0], `${it.lane.owner}${it.lane.flock ? ", flock" : ""}`, bars.pid[bar], kindText(bar),
                data.ranges[bars.range[bar]], WHATS[whatOf(bar)], spanText(bar), tookText(bar), noteText(bar)];
            rows.push(`<tr>${cells.map(cell => `<td>${escaped(cell)}</td>`).join("")}</tr>`);
        }
    }
    const heads = ["File", "Owner", "Pid", "Kind", "Range", "What", "Lines", "How long", "Why"].map(it => `<th scope="col">${it}</th>`).join("");
    const more = rows.length === MOST_LISTED ? `The first ${MOST_LISTED} are listed: zoom in for others.` : "";
    byId("list").lastElementChild.innerHTML = `<table><caption>${summary()} <span>${more}</span></caption>` +
        `<thead><tr>${heads}</tr></thead><tbody>${rows.join("")}</tbody></table>`;
}
