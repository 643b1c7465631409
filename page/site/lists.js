// The lists beside the doors, which a timer makes of what `books` prints of the journal: what is
// open, documents, entries, ledgers, and the statements and months that are kept. They are some
// minutes old; what became of an open document a door is asked. A statement that isn't kept is made
// when it is asked for.

import {reasonOf} from './doors.js';

const DOCUMENT = ['kind', 'number', 'item', 'day', 'desk', 'key', 'party', 'fund', 'dept', 'object', 'line', 'source', 'year', 'cents', 'left', 'state',
    'paid', 'run', 'entries'];
const LEDGER = ['place', 'day', 'desk', 'key', 'call', 'kind', 'document', 'item', 'word', 'party', 'fund', 'dept', 'object', 'line', 'source', 'year',
    'appropriated', 'ordered', 'held', 'spent', 'received'];
const ENTRY = ['place', 'day', 'desk', 'key', 'call', 'cents', 'number'];

export class Lists {
    constructor(doors, chart, vendors) {
        Object.assign(this, {doors, chart, vendors, open: {}, state: {files: {entries: [], documents: [], funds: []}, months: 0, years: 0},
            years: new Map()});
    }

    async load() {
        const [state, open] = await Promise.all([got('data/state.json'), got('data/open.json')]);
        Object.assign(this, {state, open});
        // What this browser ended since they were made would be shown again, also after a reload.
        for (const {text, reply} of this.doors.kept()) {
            if (reply?.ok && (reply.was ?? reply.at) > state.entries) this.took(JSON.parse(text), reply.ok);
        }
        this.vendors.take(await got('data/vendors.json').catch(() => ({vendors: [], fault: ''})));
    }

    /** Documents of a kind that may be open, the newest first. */
    of(kind) {
        return [...(this.open[kind] || [])].reverse();
    }

    document(kind, number) {
        return (this.open[kind] || []).find(each => each.number === Number(number));
    }

    /** What a call of this browser did, until the lists are made anew. */
    took(call, ok) {
        const number = ok[call.call], {open} = this;
        if (number && open[call.call] && !this.document(call.call, number)) {
            const items = call.items?.map(item => [item.fund, item.dept, item.object, item.amount]);
            const cents = items ? items.reduce((all, item) => all + item[3], 0) : call.amount;
            open[call.call].push({number, day: call.on, desk: call.desk, key: call.key, cents, who: call.vendor ?? call.payer, items});
        }
        const ended = {pay: ['voucher', call.vouchers], void_voucher: ['voucher', [call.voucher]], cancel_order: ['order', [call.order]],
            withdraw: ['requisition', [call.requisition]], order: ['requisition', [call.requisition]]}[call.call];
        if (ended && open[ended[0]]) open[ended[0]] = open[ended[0]].filter(each => !ended[1].includes(each.number));
    }

    /** Entries of a calendar year's days. */
    async entries(year) {
        if (!this.state.files.entries.includes(Number(year))) return [];
        const rows = (await got(`data/${year}-entries.json`)).map(row => named(ENTRY, row));
        this.years.set(Number(year), rows);
        return rows;
    }

    /** Documents that were entered in a calendar year. */
    async documents(year) {
        return (await got(`data/${year}-documents.json`)).map(row => named(DOCUMENT, row));
    }

    /** The ledger of a fiscal year, of a fund or of all, by rising entries. */
    async ledger(year, fund) {
        const funds = this.state.files.funds.filter(([y, f]) => y === Number(year) && (!fund || f === Number(fund)));
        const rows = await Promise.all(funds.map(([y, f]) => got(`data/${y}-fund-${f}.json`)));
        return rows.flat().map(row => named(LEDGER, row)).sort((one, other) => one.place - other.place);
    }

    /** What a control line has of a year. */
    async ofLine(line, year) {
        return (await this.ledger(year, this.chart.line[line].fund)).filter(each => each.line === Number(line));
    }

    /** Which statements and months are kept: their year, kind, and day or place, and their entries. */
    async kept() {
        return (await got('data/kept.json').catch(() => [])).map(([year, kind, at, [entries]]) => ({year, kind, at: String(at), entries}));
    }

    /** The rows of a kept statement or month, as `books` prints them. */
    keptRows({year, kind, at}) {
        return got(kind === 'month' ? `data/month-${at}.json` : `data/statement-${year}-${kind}-${at}.json`);
    }

    /**
     * The names and rows of a statement of the first entries, and through a day where one is said;
     * or a fault with what is said in its place. Without `entries` it is of all that this browser
     * knows of.
     */
    async asked({year, kind, through, entries}, signal) {
        const count = entries || String(Math.max(this.state.entries || 0, this.doors.seen));
        const words = {year, kind, entries: count, ...through && {through}};
        const answer = await fetch('/asked?' + new URLSearchParams(words), {cache: 'no-store', signal});
        const said = await answer.json().catch(() => ({}));
        if (answer.ok) return {...said, entries: count};
        throw new Error(said.says || `The statement can’t be made now: ${reasonOf(answer.status, '')}.`);
    }

    /** Rows of a kind of papers, of all years or of the last ones. */
    async rows(kind, last = Infinity) {
        const years = (this.state.files[kind] || []).slice(-last);
        return (await Promise.all(years.map(year => got(`data/${year}-${kind}.json`)))).flat();
    }

    /** Invoices of the last two years with a key, letters in upper or lower case. */
    async invoices(key) {
        const rows = await this.rows('invoices', 2).catch(() => []);
        return rows.filter(each => each[3].toLowerCase() === key).map(invoiceOf);
    }

    /** All invoices, each with the place of the entry that ended it. */
    async allInvoices() {
        return (await this.rows('invoices')).map(invoiceOf);
    }

    /**
     * What a bond's or lease's payment of a day pays, its principal and its interest, and the
     * accounts of its last payment. Lists that don't have the last payment yet can't say what the
     * next one pays.
     */
    async debt(number, next) {
        const [day, due, accounts] = (await got('data/debts.json'))[number] || ['', [], []];
        return {due: day === next ? due : [], accounts};
    }

    async receipt(place) {
        const found = (await this.rows('receipts').catch(() => [])).find(each => each[0] === place);
        if (!found) return undefined;
        const [, day, desk, key, bill, payer, source, cents] = found;
        return {day, desk, key, bill, payer, source, cents};
    }

    async entryAt(place) {
        await this.find(place).catch(() => {});
        return this.entry(place);
    }

    /** Loads the years' entries, the last first, until one has that place. */
    async find(place) {
        await this.load();
        for (const year of [...this.state.files.entries].reverse()) {
            if (this.entry(place)) return;
            await this.entries(year);
        }
    }

    /** An entry by its place, where this browser sent it or a year that was loaded has it. */
    entry(place) {
        for (const rows of this.years.values()) {
            const found = rows.find(each => each.place === Number(place));
            if (found) return found;
        }
        const sent = this.doors.kept().find(({reply}) => reply?.ok && (reply.was ?? reply.at) === Number(place));
        return sent && {key: sent.key, call: sent.call, day: sent.on};
    }
}

const named = (names, row) => Object.fromEntries(names.map((name, place) => [name, row[place]]));

/** What entries were to a document: pairs of a word and a place. */
export function wordsOf({entries}) {
    return (entries || '').split('; ').filter(Boolean).map(each => {
        const at = each.lastIndexOf(' ');
        return [each.slice(0, at), Number(each.slice(at + 1))];
    });
}

function invoiceOf([place, day, desk, key, vendor, cents, number, ended, state]) {
    return {place, day, desk, key, vendor, cents, number, ended, state};
}

/** A file of the page. */
export async function got(name) {
    const answer = await fetch(name, {cache: 'no-cache'});
    if (!answer.ok) throw new Error(`${name}: status ${answer.status}`);
    return answer.json();
}
