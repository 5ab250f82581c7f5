// Search, links, pointers, keys and buttons.
// ---- Search

function laneMatches(lane, text) {
    if (lane.owner === text || data.files[lane.file][0].toLowerCase().includes(text) || `node ${data.files[lane.file][1]}` === text) return true;
    if (!/^\d+$/.test(text)) return false;
    for (let bar = lane.from; bar < lane.to; bar++)
        if (bars.pid[bar] === +text) return true;
    return false;
}

function find(text) {
    wanted = text.trim().toLowerCase();
    found = wanted ? new Set(lanes.keys()) : null;
    if (found)
        lanes.forEach((lane, at) => { if (!laneMatches(lane, wanted)) found.delete(at); });
    box.scrollTop = 0;
    layOut();
    if (found && found.size && !shown.length) next(0);
    later();
}

// Moves to the next bar, from this order on, of a lane that is found.
function next(from) {
    let first = data.orders;
    for (const at of found || lanes.keys()) {
        const bar = leastIn(lanes[at].from, lanes[at].to, it => bars.first[it] >= from);
        if (bar < lanes[at].to) first = Math.min(first, bars.first[bar]);
    }
    if (first < data.orders) center(first);
    else if (from > 0) next(0);
}

function center(order) {
    const half = (view[1] - view[0]) / 2;
    move(placeOf(order) - half, placeOf(order) + half);
}

// Shows an order with those around it, and marks it.
function lead(order) {
    const from = placeOf(Math.max(0, order - AROUND)), to = placeOf(Math.min(data.orders, order + AROUND));
    marked = order;
    if (view[1] - view[0] > to - from) move(from, to);
    else center(order);
    byId("window").scrollIntoView();
}

// ---- A link holds the view: #at=ORDER, or #from=PLACE&to=PLACE, and find=TEXT

function remember() {
    const here = new URLSearchParams({ from: Math.floor(view[0]), to: Math.ceil(view[1]), ...(wanted ? { find: wanted } : {}) });
    try { history.replaceState(null, "", `#${here}`); } catch { /* some browsers let no file do so */ }
}

function recall() {
    const link = new URLSearchParams(location.hash.slice(1));
    if (link.has("find")) {
        byId("find").value = link.get("find");
        find(link.get("find"));
    }
    if (link.has("at")) {
        lead(Math.min(Math.max(data.first, +link.get("at")), data.orders + data.first - 1) - data.first);
    } else if (link.has("from") && link.has("to")) {
        move(+link.get("from"), +link.get("to"));
    }
}

// ---- Pointers, keys and buttons

const PRESSES = { next: () => next(orders()[1]), earlier: () => pan(-0.8), later: () => pan(0.8), nearer: () => zoom(0.5), farther: () => zoom(2),
    whole: () => move(0, end) };
const KEYS = { ArrowLeft: () => pan(-0.2), ArrowRight: () => pan(0.2), "+": () => zoom(0.6), "=": () => zoom(0.6), "-": () => zoom(1.7),
    Home: () => move(0, view[1] - view[0]), End: () => move(end - view[1] + view[0], end) };

function dragged(element, begin, during) {
    element.addEventListener("pointerdown", down => {
        if (down.button || down.offsetX > element.clientWidth) return;
        const state = begin(down), drag = new AbortController(), until = { signal: drag.signal };
        addEventListener("pointermove", event => during(event, state, down), until);
        addEventListener("pointerup", () => drag.abort(), until);
        // A touch turned out to scroll the lanes.
        addEventListener("pointercancel", () => { drag.abort(); during(down, state, down); }, until);
    });
}

function wheel(event) {
    if (event.ctrlKey || event.altKey) {
        event.preventDefault();
        zoom(event.deltaY > 0 ? 1.25 : 0.8, placeAtX(event.clientX - box.getBoundingClientRect().left));
    } else if (event.shiftKey || Math.abs(event.deltaX) > Math.abs(event.deltaY)) {
        event.preventDefault();
        pan((event.deltaX || event.deltaY) / (right() - left()));
    }
}

function click(event) {
    const it = event.target.dataset || {};
    if (it.count) move(placeOf(+it.first), placeOf(Math.min(+it.last, data.orders)));
}

function overPlace(event) {
    const at = byId("over").getBoundingClientRect();
    return (event.clientX - at.left) / at.width * end;
}

function listen() {
    for (const kind of ["pointerdown", "pointermove"]) box.addEventListener(kind, point);
    box.addEventListener("pointerleave", () => { tip.style.display = "none"; });
    box.addEventListener("wheel", wheel, { passive: false });
    box.addEventListener("scroll", later);
    box.addEventListener("click", click);
    box.addEventListener("keydown", event => { if (KEYS[event.key]) { event.preventDefault(); KEYS[event.key](); } });
    dragged(box, () => [...view], (event, start, down) => {
        const by = (down.clientX - event.clientX) * (start[1] - start[0]) / (right() - left());
        move(start[0] + by, start[1] + by);
    });
    dragged(byId("over"), down => {
        const half = (view[1] - view[0]) / 2, at = overPlace(down);
        if (at < view[0] || at > view[1]) move(at - half, at + half);
        return [...view];
    }, (event, start, down) => {
        const by = overPlace(event) - overPlace(down);
        move(start[0] + by, start[1] + by);
    });
    byId("find").addEventListener("input", event => find(event.target.value));
    byId("find").addEventListener("keydown", event => { if (event.key === "Enter") next(orders()[1]); });
    byId("list").addEventListener("toggle", later);
    for (const [id, press] of Object.entries(PRESSES))
        byId(id).addEventListener("click", press);
    addEventListener("resize", later);
    addEventListener("hashchange", recall);
}

listen();
if (data.window) move(...data.window);
recall();
draw();
