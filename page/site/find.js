// Finds documents by a number, a vendor or payer, a part of a key, or an amount: open, paid and
// closed ones. And what an entry is: its call, the documents that it touched, what it moved.

import {byId, made, tell} from './dom.js';
import {many} from './calls.js';
import {Documents, entryLink, LedgerRows} from './documents.js';
import {wordsOf} from './lists.js';
import {cents, money} from './money.js';

// How many documents are shown, the newest ones.
const MOST = 200;

export class Find {
    constructor(city) {
        Object.assign(this, city);
        this.rows = new Documents(city);
        byId('find-form').addEventListener('submit', event => {
            event.preventDefault();
            this.told();
            this.show();
        });
    }

    fromAddress([text]) {
        if (text !== undefined) byId('find-text').value = text;
    }

    toAddress() {
        return [byId('find-text').value.trim()];
    }

    async show() {
        const turn = this.turn = Symbol(), text = byId('find-text').value.trim();
        const said = byId('find-said');
        byId('find-table').replaceChildren();
        said.textContent = text ? 'Looking through the documents ..' : '';
        if (!text) return;
        await this.lists.load().catch(() => {});
        const found = await this.found(text, turn);
        if (turn !== this.turn) return;
        const shown = found.slice(0, MOST), caption = `Documents with “${text}”`;
        byId('find-table').replaceChildren(shown.length ? this.rows.table(caption, shown) : '');
        const count = found.length > MOST ? `The newest ${MOST} of more` : shown.length || 'None';
        said.textContent = `${count} found. The list has the entries up to ` +
            `${this.lists.state.entries}.`;
    }

    /** The documents that have a text, the newest first, until there are more than are shown. */
    async found(text, turn) {
        const has = this.finder(text), years = [...this.lists.state.files.documents].reverse();
        const found = [];
        for (const year of years) {
            const rows = await this.lists.documents(year).catch(() => []);
            found.push(...rows.filter(has).sort((one, other) => firstOf(other) - firstOf(one)));
            if (turn !== this.turn || found.length > MOST) break;
        }
        return found;
    }

    /**
     * Whether a document has a text: in a key, as a number, as an amount, as its own name ("Voucher
     * 12"), or in its vendor's.
     */
    finder(text) {
        const part = text.toLowerCase(), has = its => (its || '').toLowerCase().includes(part);
        const number = /^\d{1,10}$/.test(text) ? Number(text) : null, amount = cents(text);
        const named = [...this.vendors.rows].filter(([, {name}]) => has(name));
        const vendors = new Set(named.map(([vendor]) => vendor));
        const isOf = each => !['bill', 'loan'].includes(each.kind) && vendors.has(each.party);
        const isNumber = each => number !== null && [each.number, each.party].includes(number);
        const isAmount = each => amount !== null &&
            [each.cents, each.left].includes(Number(amount));
        const isName = each => this.rows.name({...each, item: null}).toLowerCase() === part;
        return each => has(each.key) || has(each.run) || isOf(each) || isNumber(each) ||
            isAmount(each) || isName(each);
    }
}

/** The place of the entry that entered a document. */
const firstOf = each => wordsOf(each)[0]?.[1] || 0;

export class Entry {
    constructor(city) {
        Object.assign(this, city);
        this.rows = new Documents(city);
        this.moved = new LedgerRows(this.rows, false);
    }

    async show([text]) {
        const turn = this.turn = Symbol(), place = Number(text), sheet = byId('entry-sheet');
        sheet.replaceChildren('..');
        const found = await this.lists.entryAt(place);
        if (turn !== this.turn) return;
        if (!found) return sheet.replaceChildren(this.missing(text));
        const parts = [this.facts(place, found), made('p', {}, ...this.beside(place))];
        const wait = made('p', {role: 'status'}, 'Looking for what it touched ..');
        sheet.replaceChildren(...parts, wait);
        const [documents, moved] = await Promise.all([this.documents(place).catch(() => []),
            this.ledger(place, found.day).catch(() => [])]);
        if (turn !== this.turn) return;
        if (documents.length) parts.push(this.rows.table('Documents of this entry', documents));
        if (moved.length) parts.push(this.moved.table('What it moved of lines and sources', moved));
        sheet.replaceChildren(...parts);
        tell(`Entry ${place}: ${many(documents.length, 'document')}`);
    }

    missing(text) {
        const {entries} = this.lists.state;
        return made('p', {className: 'said no', role: 'alert'},
            `Entry ${text} isn’t in the lists, which have ${entries || 0}.`);
    }

    facts(place, {day, call, key, desk, cents: amount}) {
        const facts = [['Day', day], ['What', this.tables.calls[call].title], ['Key', key],
            ['Entered by', desk === undefined ? '' : this.chart.name('desk', desk)],
            ['Amount', amount === null || amount === undefined ? '' : money(amount)]];
        const shown = facts.filter(([, text]) => text);
        const list = made('dl', {className: 'facts'},
            ...shown.flatMap(([name, text]) => [made('dt', {}, name), made('dd', {}, text)]));
        return made('div', {}, made('h2', {}, `${this.chart.city}: entry ${place}`), list);
    }

    /** The ways to the entries before and behind it. */
    beside(place) {
        const before = place > 1 ? [entryLink(place - 1, 'The entry before'), ' '] : [];
        if (place >= this.lists.state.entries) return before;
        return [...before, entryLink(place + 1, 'The next entry')];
    }

    async documents(place) {
        const {documents} = this.lists.state.files;
        const years = await Promise.all(documents.map(year => this.lists.documents(year)));
        return years.flat().filter(each => wordsOf(each).some(([, at]) => at === place));
    }

    /** What the entry moved of the fiscal year of its day, of the one before and the next one. */
    async ledger(place, day) {
        const year = this.chart.yearOf(day), around = [year - 1, year, year + 1];
        const years = await Promise.all(around.map(each => this.lists.ledger(each)));
        return years.flat().filter(each => each.place === place);
    }
}
