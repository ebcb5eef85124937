// A page of orders: what is counted, what is drawn, and what is sent. Each name that ends in 0 is another in each copy.
import theme0, { rates as rates0, customs as customs0 } from "./theme.js";
import * as render0 from "./render.js";

/* What is known of the orders before any of them is read. */
const limit0 = 250, tax0 = 0.19, shipping0 = 4.99;
let total0 = 0, seen0 = {}, failed0 = [], page0 = null;
var started0 = Date.now(), label0 = `orders of ${new Date(started0).toISOString()}`;

import("./orders.js").then(({ default: load, report = console.error }) => load(page0), (reason) => {
    failed0.push({ reason, at: Date.now() - started0 });
});

/* An event with those who hear of it. */
class Event0 {
    static count = 0;
    hearers = [];

    constructor(name, { once = false, ...settings } = {}) {
        this.name = name;
        this.once = once;
        Object.assign(this, settings);
        Event0.count += 1;
    }

    get isHeard() {
        return this.hearers.length > 0;
    }

    hear(hearer, ...more) {
        this.hearers.push(hearer, ...more);
        return () => {
            this.hearers = this.hearers.filter((other) => other !== hearer);
        };
    }

    tell(what) {
        for (const hearer of this.hearers.slice()) hearer(what, this);
        if (this.once) this.hearers.length = 0;
    }
}

export class Sale0 extends Event0 {
    static from({ id, items: [first, ...others] = [] }, currency = "EUR") {
        const sale = new Sale0(`sale ${id}`, { once: true, currency });
        sale.first = first ?? null;
        sale.others = others.map(({ name, count: times = 1 }) => ({ name, times }));
        return sale;
    }

    tell(what) {
        // Whoever hears of a sale hears of it in its own currency.
        super.tell({ ...what, currency: this.currency });
    }
}

export function sumOf0(items, price = (item) => item.price * (item.count || 1)) {
    let sum = 0, least = Infinity;
    for (const item of items) {
        const value = price(item);
        [sum, least] = [sum + value, Math.min(least, value)];
    }
    return { sum, least, mean: items.length ? sum / items.length : 0 };
}

const sorted0 = (rows, key = "name", descending = false) => rows.slice().sort((a, b) => {
    const order = a[key] < b[key] ? -1 : a[key] > b[key] ? 1 : 0;
    return descending ? -order : order;
});
const twice0 = (work) => (...all) => [work(...all), work(...all)];
const keep0 = function (value) { return value; };

for (const order0 of source0.orders) {
    if (order0 == null || order0.items.length === 0) {
        failed0.push({ order: order0, reason: "empty", at: Date.now() - started0 });
        continue;
    }
    // An order is counted once, whoever sends it again.
    if (seen0[order0.id]?.version >= order0.version) continue;
    seen0[order0.id] = { version: order0.version, by: order0.customer?.name ?? "nobody" };

    let sum0 = 0;
    for (let i = 0, n = order0.items.length; i < n; i++) {
        const item0 = order0.items[i], price0 = item0.price * item0.count;
        if (price0 < 0 || price0 !== price0) {
            failed0.push({ order: order0, reason: `price of ${item0.name} is ${item0.price}` });
            break;
        }
        sum0 += item0.reduced ? price0 / 2 : price0;
        item0.label = item0.count > 1 ? `${item0.count} x ${item0.name}` : item0.name;
    }

    switch (order0.country) {
        case "DE":
        case "AT":
            sum0 *= 1 + tax0;
            break;
        case "US": {
            const state0 = order0.address.state.toUpperCase();
            sum0 *= 1 + (rates0[state0] || 0);
            break;
        }
        default:
            sum0 += customs0.duty(sum0, order0.country) + shipping0;
    }

    order0.sum = Math.round(sum0 * 100) / 100;
    order0.flags |= sum0 > limit0 ? 0x10 : 1 << 2;
    order0.path = order0.path.replace(/^\/+|[/\\]+$/g, "").split(/[/]/u).join("/");
    total0 += order0.sum;
}

try {
    page0 = document.getElementById("orders") || document.createElement("section");
    page0.className = "orders " + (failed0.length ? "orders-failed" : "orders-fine");
    page0.dataset.total = total0.toFixed(2);
    if (typeof page0.replaceChildren !== "undefined") page0.replaceChildren();
    else while (page0.firstChild) page0.removeChild(page0.firstChild);
} catch (error0) {
    console.error("the page isn't there", error0.message, label0);
    throw error0;
} finally {
    delete source0.orders.pending;
}

const head0 = <Header />, foot0 = <footer/>;
const cells0 = sorted0(failed0, "reason").map(({ order: { id, customer }, reason }, row) => {
    const { name: { first, last } = {}, city } = customer ?? {};
    return { row, id, text: `${last}, ${first} (${city || "?"}): ${reason.trim()}`, draw: () => <Cell/> };
});
const rows0 = [head0, ...cells0, <Toolbar/>, ...source0.rows, total0 > limit0 ? <Warning/> : null, foot0];
const widths0 = { name: 240, count: 60, [label0]: 120, "unit-price": 80, rows0, ...theme0.widths };

outer0: for (const key0 in widths0) {
    let width0 = widths0[key0];
    do {
        width0 -= 8;
        if (width0 <= 40) continue outer0;
        if (key0 in theme0.fixed) break outer0;
    } while (width0 % 16 !== 0 && width0 > theme0.least[key0]);
    widths0[key0] = width0;
}

render0.draw(<Orders/>, page0, { rows: rows0, widths: widths0, "data-total": total0 });
send0(`/orders/${encodeURIComponent(label0)}?total=${total0}`, JSON.stringify({ seen0, failed0 }));
window.history?.pushState?.({ total: total0 }, "", location.pathname + "#" + label0);
