// The ledger of a line, a department, a vendor or payer, a source or a fund, in a fiscal year.

import {byId, fill, give, made, tell} from './dom.js';
import {many} from './calls.js';
import {dated} from './chart.js';
import {sheet} from './cells.js';
import {Documents, LedgerRows} from './documents.js';

// What a ledger may be of, with the column of its rows.
const BY = {line: 'line', department: 'dept', party: 'party', source: 'source', fund: 'fund'};
const SPAN = ['ledger-from', 'ledger-through', 'ledger-entries'];

const valueOf = id => byId(id).value.trim();

export class Ledger {
    constructor(city) {
        Object.assign(this, city);
        this.rows = new LedgerRows(new Documents(city), false);
        byId('ledger-form').addEventListener('submit', event => {
            event.preventDefault();
            this.changed();
        });
        byId('ledger-by').addEventListener('change', () => this.offer());
        for (const id of ['ledger-year', 'ledger-by', 'ledger-of', ...SPAN]) {
            byId(id).addEventListener('change', () => this.changed());
        }
        byId('ledger-print').addEventListener('click', () => print());
        byId('ledger-csv').addEventListener('click', () => this.save());
        this.offer();
    }

    changed() {
        this.told();
        this.show();
    }

    /** What the ledger may be of. A vendor or payer is typed. */
    offer() {
        const {chart} = this, by = valueOf('ledger-by');
        const name = line => `${chart.lineInFull(line)} (${line})`;
        const lines = () => chart.line.map((_, line) => [line, name(line)]);
        const pairs = by === 'line' ? lines() : by === 'party' ? null : chart.pairs(by);
        byId('ledger-of').closest('.field').hidden = !pairs;
        byId('ledger-party').closest('.field').hidden = Boolean(pairs);
        if (pairs) fill(byId('ledger-of'), pairs);
    }

    fromAddress([year, by, of, ...span], now) {
        byId('ledger-year').value = year || now;
        if (BY[by]) byId('ledger-by').value = by;
        this.offer();
        if (of !== undefined) byId(by === 'party' ? 'ledger-party' : 'ledger-of').value = of;
        SPAN.forEach((id, place) => { byId(id).value = span[place] || ''; });
    }

    /** Today's year is left out of the address. */
    toAddress(now) {
        const year = valueOf('ledger-year'), by = valueOf('ledger-by');
        const of = valueOf(by === 'party' ? 'ledger-party' : 'ledger-of');
        return [year === now ? '' : year, by, of, ...SPAN.map(valueOf)];
    }

    asked() {
        const by = valueOf('ledger-by'), {entries} = this.lists.state;
        const [from, through, last] = SPAN.map(valueOf);
        const of = by === 'party' ? this.partyOf(valueOf('ledger-party')) : valueOf('ledger-of');
        return {year: Number(valueOf('ledger-year')), by, of, from, through,
            entries: Math.min(Number(last) || Infinity, entries || 0)};
    }

    /** A vendor's or payer's number as it is typed; of a name that of the first vendor with it. */
    partyOf(text) {
        if (!text || /^\d{1,10}$/.test(text)) return text;
        const has = name => name.toLowerCase().includes(text.toLowerCase());
        const found = [...this.vendors.rows].find(([, {name}]) => has(name));
        return found ? String(found[0]) : '';
    }

    async show() {
        const turn = this.turn = Symbol(), place = byId('ledger-table');
        await this.lists.load().catch(() => {});
        const asked = this.asked(), {year, by, of} = asked;
        this.found = undefined;
        if (of === '') return place.replaceChildren(made('p', {}, this.missing(by)));
        place.replaceChildren('..');
        const fund = {fund: of, line: this.chart.line[of]?.fund}[by];
        const rows = await this.lists.ledger(year, fund).catch(fault => ({fault}));
        if (turn !== this.turn) return;
        if (rows.fault) return place.replaceChildren(this.words.failed(rows));
        const found = rows.filter(each => isOf(each, asked));
        this.found = {asked, rows: found};
        const title = `${this.chart.city}: ${this.title(asked)}`;
        place.replaceChildren(made('h2', {}, title),
            made('p', {className: 'span'}, spanOf(asked)), this.rows.table(title, found));
        tell(`${title}: ${many(found.length, 'row')}`);
    }

    missing(by) {
        return by !== 'party' ? 'Choose one.'
            : 'Type a vendor’s or payer’s number, or a part of a vendor’s name.';
    }

    title({by, of, year}) {
        const {chart} = this, vendor = this.vendors.name(of);
        const name = {
            line: () => chart.lineInFull(of),
            party: () => vendor ? `vendor ${this.vendors.cell(of)}` : `vendor or payer ${of}`,
        }[by] || (() => chart.name(by, of));
        return `ledger of ${name()}, fiscal year ${year}`;
    }

    save() {
        if (!this.found) return;
        const {asked: {year, by, of}, rows} = this.found;
        give(`${year}-ledger-${by}-${of}.csv`, sheet(this.rows.sheet(rows)), 'text/csv');
    }
}

function isOf(each, {by, of, from, through, entries}) {
    return each[BY[by]] === Number(of) && each.place <= entries && (!from || from <= each.day) &&
        (!through || each.day <= through);
}

function spanOf({from, through, entries}) {
    const first = from ? `From ${dated(from)} ` : '';
    const last = through ? `${first ? 'through' : 'Through'} ${dated(through)}` : '';
    return `${first + last || 'All days'}`.trim() + `, entries 1 to ${entries}.`;
}
