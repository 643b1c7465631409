// Rows of documents and of the ledger, each with a way to its entries.

import {made, row, table} from './dom.js';
import {wordsOf} from './lists.js';
import {money, plain, sum} from './money.js';

const KINDS = {
    requisition: 'Requisition', order: 'Order', voucher: 'Voucher', bill: 'Bill', asset: 'Asset',
    bond: 'Bond', lease: 'Lease', loan: 'Loan',
};
const MOVED = [['appropriated', 'Appropriated'], ['ordered', 'Ordered'], ['held', 'Held'],
    ['spent', 'Spent'], ['received', 'Received']];
const HEADS = ['Entry', 'Day', 'What', 'Key', 'Document', 'Vendor or payer'];
const PAID = 'paid';
// How many rows of a ledger are shown, the last ones. The sheet and the totals have all.
const MOST = 500;

export function entryLink(place, text = String(place)) {
    return made('a', {href: `#entry/${place}`}, text);
}

export class Documents {
    constructor({chart, vendors, tables}) {
        Object.assign(this, {chart, vendors, tables});
    }

    /** A vendor by number and name; of a bill the payer, and of a loan the fund that borrows. */
    party(kind, number) {
        if (number === null || number === undefined) return '';
        if (kind === 'loan') return this.chart.name('fund', number);
        return kind === 'bill' ? `payer ${number}` : this.vendors.cell(number);
    }

    name({kind, number, item}) {
        return `${KINDS[kind] || kind} ${number}${item ? `, item ${item}` : ''}`;
    }

    /** What became of a document, in the words of the books. */
    became({state, left, cents, paid, run}) {
        const rest = left && left !== cents ? `, ${money(left)} left` : '';
        if (!paid) return state + rest;
        return state === PAID ? `${state} on ${paid} by ${run}`
            : `${state}${rest}, last paid on ${paid} by ${run}`;
    }

    /** A way to each entry of a document. */
    ways(each) {
        const links = wordsOf(each).map(([word, place]) => entryLink(place, `${word} ${place}`));
        return made('span', {}, ...links.flatMap((link, at) => at ? [' ', link] : [link]));
    }

    table(caption, found) {
        const heads = ['Document', 'Day', 'Key', 'Vendor or payer', ['Amount', true],
            'What became of it', 'Entries'];
        const rows = found.map(each => row([this.name(each), each.day, each.key,
            this.party(each.kind, each.party), money(each.cents), this.became(each),
            this.ways(each)]));
        return table(caption, heads, rows, 'cards');
    }
}

/** The ledger's rows as a table and as a sheet. `isNarrow` leaves out what is one line's. */
export class LedgerRows {
    constructor(documents, isNarrow) {
        const {chart, tables} = documents;
        const moved = isNarrow ? MOVED.filter(([name]) => name !== 'received') : MOVED;
        const heads = isNarrow ? HEADS : [...HEADS, 'Line or source'];
        Object.assign(this, {documents, isNarrow, moved, heads, chart, tables});
    }

    /** A call, and what it was to the document, as "Close a month or a year: carried". */
    what({call, word}) {
        const {title} = this.tables.calls[call];
        return word && word !== 'entered' ? `${title}: ${word}` : title;
    }

    of({line, source, fund}) {
        if (line !== null) return this.chart.lineInFull(line);
        return source === null ? this.chart.name('fund', fund) : this.chart.name('source', source);
    }

    document({kind, document, item}) {
        return document === null ? ''
            : this.documents.name({kind: kind || 'document', number: document, item});
    }

    texts(each) {
        const party = this.documents.party(each.kind, each.party);
        const texts = [String(each.place), each.day, this.what(each), each.key,
            this.document(each), party];
        return this.isNarrow ? texts : [...texts, this.of(each)];
    }

    row(each) {
        const [place, ...texts] = this.texts(each);
        const amounts = this.moved.map(([name]) => each[name] ? money(each[name]) : '');
        return row([entryLink(place), ...texts, ...amounts]);
    }

    table(caption, found) {
        const rows = found.slice(-MOST).reverse().map(each => this.row(each));
        const total = found.length <= MOST ? 'Total'
            : `Total of all ${found.length} rows, of which the last ${MOST} are shown`;
        const sums = this.moved.map(([name]) => money(sum(found.map(each => each[name]))));
        rows.push(row([total, ...this.heads.slice(1).map(() => ''), ...sums], 'sum'));
        const heads = [...this.heads, ...this.moved.map(([, text]) => [text, true])];
        return table(caption, heads, rows, 'cards');
    }

    sheet(found) {
        const amounts = each => this.moved.map(([name]) => plain(each[name]));
        const heads = [...this.heads, ...this.moved.map(([, text]) => text)];
        return [heads, ...found.map(each => [...this.texts(each), ...amounts(each)])];
    }
}
